//! What was compared and how it came out: the differences, of which the first
//! ten are printed, and how often each refusal number was answered.

use std::fmt::Debug;

use crate::sizes::REFUSALS;

const PRINTED: u64 = 10;

/// The differences of a whole run.
#[derive(Default)]
pub struct Differences(pub u64);

impl Differences {
    /// Holds ours against the expected; `what` says, where they differ, on which input.
    pub fn compare<T: PartialEq + Debug>(
        &mut self,
        ours: T,
        expected: T,
        what: impl Fn() -> String,
    ) {
        if ours == expected {
            return;
        }
        self.0 += 1;
        if self.0 <= PRINTED {
            say!("different: {}\n  ours     {ours:?}\n  expected {expected:?}", what());
        }
    }
}

/// How much one comparison compared, and how often each refusal number came out.
#[derive(Default)]
pub struct Tally {
    pub total: u64,
    by_number: [u64; REFUSALS],
}

impl Tally {
    /// A number that no refusal has is told as a difference; it has no column here.
    pub fn count(&mut self, number: u32) {
        self.total += 1;
        if let Some(count) = self.by_number.get_mut(number as usize) {
            *count += 1;
        }
    }

    /// One line: each number that came out, and how often.
    pub fn print(&self, name: &str) {
        let came = self.by_number.iter().enumerate().filter(|(_, count)| **count > 0);
        let row: Vec<String> = came.map(|(number, count)| format!("{number}: {count}")).collect();
        say!("{name} by refusal number: {}", row.join(", "));
    }
}
