//! Comparison 8: the program's line for any bytes, against the line that the host writes from the
//! Rust's plan; the rest of the lent buffer, and what is on either side of it, stays as it was.

use crate::added::answers;
use crate::added::lines;
use crate::added::record;
use crate::cases::boundary_records;
use crate::cases::boundary_requests;
use crate::cases::records;
use crate::cases::requests::Requests;
use crate::compare::run::{Run, ENOUGH};
use crate::library::{self, Lined, GUARD, UNTOUCHED_BYTE};
use crate::model::clocks::Plan;
use crate::model::rows;
use crate::model::table::Table;
use crate::sizes::LINE;

struct Lines<'a> {
    run: &'a mut Run,
    table: Table,
    /// The lengths of the shortest and the longest line.
    lengths: (u32, u32),
}

/// Compares every boundary record and request, then random ones, a quarter of them damaged;
/// answers how many there were.
pub fn run(run: &mut Run, requests: &Requests) -> u64 {
    let table = Table::new("lines", &[rows::OF_PLAN]);
    let mut lines = Lines { run, table, lengths: (u32::MAX, 0) };
    for record in boundary_records::all() {
        lines.compare(&record);
    }
    for numbers in boundary_requests::all() {
        lines.compare(&record::write(&numbers));
    }
    for _ in 0..lines.run.count {
        let Run { assertions, random, .. } = &mut *lines.run;
        let record = match random.once_in(5) {
            true => records::damaged(random),
            false => requests.record(assertions, random),
        };
        lines.compare(&record);
    }
    let Lines { run, table, lengths: (least, most) } = lines;
    say!("lines: {} records, the lines of {least} to {most} bytes", table.total);
    run.print(&table, ENOUGH);
    table.total
}

/// What the library must answer for a plan: nothing is written but the line.
fn expected(plan: &Result<Plan, u32>) -> Lined {
    let line = lines::line(plan);
    let mut out = [UNTOUCHED_BYTE; GUARD + LINE + GUARD];
    out[GUARD..GUARD + line.len()].copy_from_slice(line.as_bytes());
    (line.len() as u32, out)
}

/// Holds the line of a record against that of its plan; answers its length.
pub fn hold(run: &mut Run, record: &[u8], plan: &Result<Plan, u32>) -> u32 {
    let (ours, expected) = (library::line(record), expected(plan));
    if ours != expected {
        let shown = |(length, out): Lined| (length, out.escape_ascii().to_string());
        let what = || format!("line of the record {record:02x?}");
        run.differences.compare(shown(ours), shown(expected), what);
    }
    ours.0
}

impl Lines<'_> {
    fn compare(&mut self, record: &[u8]) {
        let plan = answers::plan_of(&self.run.assertions, record);
        let length = hold(self.run, record, &plan);
        self.lengths = (self.lengths.0.min(length), self.lengths.1.max(length));
        self.table.count(&[rows::refusal(plan.err().unwrap_or(0))]);
    }
}
