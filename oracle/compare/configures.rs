//! Comparison 5: `pll_configure` on the configuration of a record, in all numbers of the
//! configuration as planned, and in the count of passes by document 01's walk.

use crate::added::answers;
use crate::added::check;
use crate::added::record;
use crate::cases::boundary_requests;
use crate::cases::requests::Requests;
use crate::compare::run::{Run, ENOUGH};
use crate::library::{self, UNTOUCHED};
use crate::model::configuration::Numbers;
use crate::model::rows;
use crate::model::table::Table;
use crate::sizes::CONFIG;

struct Configures<'a> {
    run: &'a mut Run,
    table: Table,
}

/// Compares every boundary request, then random ones; answers how many there were.
pub fn run(run: &mut Run, requests: &Requests) -> u64 {
    let table = Table::new("configures", &[rows::OF_CONFIGURE, rows::WAYS]);
    let mut configures = Configures { run, table };
    for numbers in boundary_requests::all() {
        configures.compare(&record::write(&numbers));
    }
    for _ in 0..configures.run.count {
        let Run { assertions, random, .. } = configures.run;
        let record = requests.record(assertions, random);
        configures.compare(&record);
    }
    let Configures { run, table } = configures;
    say!("configures: {} records", table.total);
    run.print(&table, ENOUGH);
    table.total
}

impl Configures<'_> {
    fn compare(&mut self, record: &[u8]) {
        let ours = library::configure(record);
        let expected = match check::checked(&self.run.assertions, record) {
            Ok(numbers) => self.expected(&numbers),
            Err(number) => {
                self.table.count(&[rows::refusal(number)]);
                (number, [UNTOUCHED; CONFIG], 0)
            }
        };
        let what = || format!("configure of the record {record:02x?}");
        self.run.differences.compare(ours, expected, what);
    }

    /// The answer for a configuration within its limits; passes are written in any case.
    fn expected(&mut self, numbers: &Numbers) -> (u32, Numbers, u32) {
        let configured = answers::configured(&self.run.assertions, numbers);
        let (number, config) = match configured {
            Ok(config) => (0, config),
            Err(number) => (number, [UNTOUCHED; CONFIG]),
        };
        self.table.count(&[rows::refusal(number), rows::of_way(numbers, number == 0)]);
        (number, config, answers::passes(numbers))
    }
}
