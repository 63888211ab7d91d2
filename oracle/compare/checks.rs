//! Comparison 2: the check of a record, ours against the least refusal number
//! among the Rust's assertions when each field is put through its setter.

use crate::added::check;
use crate::added::record;
use crate::cases::boundary_records;
use crate::cases::records;
use crate::compare::run::Run;
use crate::compare::tally::Tally;
use crate::library;

struct Checks<'a> {
    run: &'a mut Run,
    tally: Tally,
    /// Records that deserve several numbers.
    several: u64,
}

/// Compares every boundary record, then random ones; answers how many there were.
pub fn run(run: &mut Run) -> u64 {
    let mut checks = Checks { run, tally: Tally::default(), several: 0 };
    for record in boundary_records::all() {
        checks.compare(&record);
    }
    for _ in 0..checks.run.count {
        let random = &mut checks.run.random;
        if random.once_in(4) {
            let record = records::damaged(random);
            checks.compare(&record);
        } else {
            let record = record::write(&records::random_configuration(random));
            checks.compare(&record);
        }
    }
    let Checks { tally, several, .. } = checks;
    say!("checks: {} records, of them {several} with several refusals at once", tally.total);
    tally.print("checks");
    tally.total
}

impl Checks<'_> {
    fn compare(&mut self, record: &[u8]) {
        let refusals = check::refusals(&self.run.assertions, record);
        let ours = library::check(record);
        self.tally.count(ours);
        self.several += u64::from(refusals.iter().min() != refusals.iter().max());
        let least = refusals.into_iter().min().unwrap_or(0);
        let what = || format!("check of the record {record:02x?}");
        self.run.differences.compare(ours, least, what);
    }
}
