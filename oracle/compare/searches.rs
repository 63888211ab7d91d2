//! Comparison 3: the search, ours against the Rust's for M, N, P and Q and
//! against document 01's walk for the count of passes.

use crate::added::answers;
use crate::cases::boundary_searches;
use crate::cases::searches::{self, Case};
use crate::compare::run::Run;
use crate::compare::tally::Tally;
use crate::library;
use crate::model::limits::{within, BYPASS};
use crate::model::walk::walk;
use crate::sizes::SEARCH;

struct Searches<'a> {
    run: &'a mut Run,
    tally: Tally,
    /// Searches with an input outside 1 to 50 MHz, and how often the Rust found an answer.
    outside: u64,
    found_outside: u64,
}

/// Compares every boundary case, then random ones; answers how many there were.
pub fn run(run: &mut Run) -> u64 {
    let tally = Tally::default();
    let mut searches = Searches { run, tally, outside: 0, found_outside: 0 };
    for case in boundary_searches::all() {
        searches.compare(case);
    }
    for _ in 0..searches.run.count {
        let case = searches::any(&mut searches.run.random);
        searches.compare(case);
    }
    searches.print();
    searches.tally.total
}

impl Searches<'_> {
    fn compare(&mut self, case: Case) {
        let Case { input, p, q } = case;
        let ours = library::search(input, p, q);
        self.tally.count(ours.0);
        let found = answers::found(&self.run.assertions, input, p, q);
        if !within(BYPASS, input) {
            self.outside += 1;
            self.found_outside += u64::from(matches!(found, Ok(Some(_))));
            self.run.differences.compare(ours, (1, [0; SEARCH]), || format!("search {case:?}"));
            return;
        }
        let walked = walk(input, p, q);
        let expected = answers::searched(found, walked.1[0]);
        self.run.differences.compare(ours, expected, || format!("search {case:?}"));
        self.run.differences.compare(walked, expected, || {
            format!("search {case:?}, document 01's walk in place of ours")
        });
    }

    fn print(&self) {
        let Searches { outside, found_outside, .. } = self;
        say!(
            "searches: {} searches, of them {outside} with an input outside 1 to 50 MHz (1; \
             the Rust searches on there and found an answer to {found_outside})",
            self.tally.total
        );
        self.tally.print("searches");
    }
}
