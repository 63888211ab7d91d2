//! Comparison 6: `calculate_clocks` on the configuration of a record as it stands: every
//! frequency, code and flag, and HSE, LSE and LSI.

use crate::added::answers;
use crate::added::check;
use crate::added::record;
use crate::cases::boundary_requests;
use crate::cases::requests::Requests;
use crate::compare::run::{Run, ENOUGH};
use crate::library::{self, UNTOUCHED};
use crate::model::configuration::Numbers;
use crate::model::rows;
use crate::model::table::Table;
use crate::sizes::CLOCKS;

struct Derives<'a> {
    run: &'a mut Run,
    table: Table,
}

/// Compares every boundary request, as it stands and as planned, then random ones, half of
/// them as planned; answers how many there were.
pub fn run(run: &mut Run, requests: &Requests) -> u64 {
    let groups = [&[rows::OF_DERIVE], &rows::CLOCKS[..]].concat();
    let mut derives = Derives { run, table: Table::new("derives", &groups) };
    for numbers in boundary_requests::all() {
        derives.compare(&record::write(&numbers));
        let planned = derives.as_planned(&numbers);
        derives.compare(&record::write(&planned));
    }
    for _ in 0..derives.run.count {
        let Run { assertions, random, .. } = &mut *derives.run;
        let (record, planned) = (requests.record(assertions, random), random.once_in(2));
        match record::read(&record) {
            Ok(numbers) if planned => {
                let numbers = derives.as_planned(&numbers);
                derives.compare(&record::write(&numbers));
            }
            _ => derives.compare(&record),
        }
    }
    let Derives { run, table } = derives;
    say!("derives: {} records", table.total);
    run.print(&table, ENOUGH);
    table.total
}

impl Derives<'_> {
    /// The configuration that the Rust plans; as it stands, if it is refused.
    fn as_planned(&self, numbers: &Numbers) -> Numbers {
        let rust = &self.run.assertions;
        let checked = check::checked(rust, &record::write(numbers));
        checked.and_then(|numbers| answers::configured(rust, &numbers)).unwrap_or(*numbers)
    }

    fn compare(&mut self, record: &[u8]) {
        let ours = library::derive(record);
        let rust = &self.run.assertions;
        let checked = check::checked(rust, record);
        let derived = checked.and_then(|numbers| Ok((numbers, answers::derived(rust, &numbers)?)));
        let expected = match derived {
            Ok((numbers, clocks)) => {
                let of_clocks = rows::of_clocks(&numbers, &clocks);
                self.table.count(&[&[rows::refusal(0)], &of_clocks[..]].concat());
                (0, clocks)
            }
            Err(number) => {
                self.table.count(&[rows::refusal(number)]);
                (number, [UNTOUCHED; CLOCKS])
            }
        };
        let what = || format!("derive of the record {record:02x?}");
        self.run.differences.compare(ours, expected, what);
    }
}
