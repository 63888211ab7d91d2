//! Comparison 10: damaged records and random bytes through the plan and the line.

use std::time::Instant;

use crate::added::answers;
use crate::added::check;
use crate::cases::damage::{self, Damage};
use crate::compare::lines;
use crate::compare::plans;
use crate::compare::run::Run;
use crate::model::rows;
use crate::model::table::Table;

/// The records from which on each row must come out.
const ENOUGH: u64 = 100_000;

/// Answers how many records there were.
pub fn run(run: &mut Run, damage: &Damage) -> u64 {
    let mut table = Table::new("damaged records", &[damage::ROWS, rows::OF_PLAN]);
    let start = Instant::now();
    for _ in 0..run.count {
        let (kind, record) = damage.record(&mut run.random);
        let checked = check::checked(&run.assertions, &record);
        let (plan, passes) = answers::plan_and_passes(&run.assertions, &checked);
        plans::hold(run, &record, &plan, passes);
        lines::hold(run, &record, &plan);
        table.count(&[kind, rows::refusal(plan.err().unwrap_or(0))]);
    }
    let seconds = start.elapsed().as_secs_f64();
    say!("damaged records: {}, a plan and a line of each, in {seconds:.1} s", table.total);
    run.print(&table, ENOUGH);
    table.total
}
