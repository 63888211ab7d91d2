//! What the comparisons of one run share: how many random cases each makes, where these come
//! from, which assertion of the Rust stands for which refusal, and the differences found.

use crate::added::refusals::Assertions;
use crate::cases::random::Random;
use crate::compare::tally::Differences;
use crate::model::table::Table;

/// The random cases from which on each row of a plan and of its parts must come out.
pub const ENOUGH: u64 = 50_000;

pub struct Run {
    pub count: u64,
    pub random: Random,
    pub assertions: Assertions,
    pub differences: Differences,
}

impl Run {
    pub fn new(count: u64, seed: u64) -> Self {
        let (random, assertions) = (Random::new(seed), Assertions::of_the_rust());
        Run { count, random, assertions, differences: Differences::default() }
    }

    /// Prints a table. With enough random cases a row that never came out is a difference:
    /// nothing was compared there.
    pub fn print(&mut self, table: &Table, enough: u64) {
        table.told().iter().for_each(|line| say!("{line}"));
        if self.count >= enough {
            let what = || format!("{}, rows that never came out", table.what);
            self.differences.compare(table.missing(), Vec::new(), what);
        }
    }
}
