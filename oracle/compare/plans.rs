//! Comparison 7: the whole plan of a record: the configuration as planned, its clocks, the
//! passes, and 7 and 9 to 11 by the assertions of the Rust's own `freeze`.

use crate::added::answers;
use crate::added::check;
use crate::added::record;
use crate::cases::boundary_requests;
use crate::cases::requests::Requests;
use crate::compare::run::{Run, ENOUGH};
use crate::library::{self, Planned, UNTOUCHED};
use crate::model::clocks::{self, Plan};
use crate::model::configuration::{at, Numbers};
use crate::model::rows;
use crate::model::table::Table;
use crate::model::ways::{self, Way};
use crate::sizes::{CLOCKS, CONFIG};

struct Plans<'a> {
    run: &'a mut Run,
    table: Table,
    /// Clocks granted above their request: HCLK, PCLK1, PCLK2; and bus clocks above their cap.
    above_request: [u64; 3],
    above_cap: u64,
    /// The least and the greatest SYSCLK less its request, where a P window was sought.
    off: (i64, i64),
}

/// Compares every boundary request, then random ones; answers how many there were.
pub fn run(run: &mut Run, requests: &Requests) -> u64 {
    let groups = [&[rows::OF_PLAN, rows::WAYS], &rows::CLOCKS[..]].concat();
    let table = Table::new("plans", &groups);
    let mut plans = Plans { run, table, above_request: [0; 3], above_cap: 0, off: (0, 0) };
    for numbers in boundary_requests::all() {
        plans.compare(&record::write(&numbers));
    }
    for _ in 0..plans.run.count {
        let Run { assertions, random, .. } = &mut *plans.run;
        let record = requests.record(assertions, random);
        plans.compare(&record);
    }
    plans.print();
    let Plans { run, table, .. } = plans;
    run.print(&table, ENOUGH);
    table.total
}

/// What the library must answer for a plan: refused, nothing is written but the passes.
fn expected(plan: &Result<Plan, u32>, passes: u32) -> Planned {
    match plan {
        Ok((config, clocks)) => (0, *config, *clocks, passes),
        Err(number) => (*number, [UNTOUCHED; CONFIG], [UNTOUCHED; CLOCKS], passes),
    }
}

/// Holds the plan of a record against the one expected.
pub fn hold(run: &mut Run, record: &[u8], plan: &Result<Plan, u32>, passes: u32) {
    let what = || format!("plan of the record {record:02x?}");
    run.differences.compare(library::plan(record), expected(plan, passes), what);
}

impl Plans<'_> {
    fn compare(&mut self, record: &[u8]) {
        let checked = check::checked(&self.run.assertions, record);
        let (plan, passes) = answers::plan_and_passes(&self.run.assertions, &checked);
        match (&checked, &plan) {
            (Ok(numbers), Ok(plan)) => self.look_at(numbers, plan),
            (Ok(numbers), Err(number)) => {
                let of_way = rows::of_way(numbers, *number != 7);
                self.table.count(&[rows::refusal(*number), of_way]);
            }
            (Err(number), _) => self.table.count(&[rows::refusal(*number)]),
        }
        hold(self.run, record, &plan, passes);
    }

    /// Counts a plan under its rows, and where it grants more than was asked.
    fn look_at(&mut self, numbers: &Numbers, (config, clocks): &Plan) {
        let of_clocks = rows::of_clocks(config, clocks);
        let others = [rows::refusal(0), rows::of_way(numbers, true)];
        self.table.count(&[&others, &of_clocks[..]].concat());
        let granted = [clocks::at::HCLK, clocks::at::PCLK1, clocks::at::PCLK2];
        for (i, flag) in [at::HCLK, at::PCLK1, at::PCLK2].into_iter().enumerate() {
            let above = numbers[flag] > 0 && clocks[granted[i]] > numbers[flag + 1];
            self.above_request[i] += u64::from(above);
        }
        let above_cap = |&place: &usize| clocks[place] > rows::cap_hertz(clocks, place);
        self.above_cap += granted[1..].iter().filter(|place| above_cap(place)).count() as u64;
        if let Way::Search { p: Some(_), .. } = ways::way(numbers) {
            let sysclk = i64::from(clocks[clocks::at::SYSCLK]);
            let off = sysclk - i64::from(numbers[at::SYSCLK + 1]);
            self.off = (self.off.0.min(off), self.off.1.max(off));
        }
    }

    fn print(&self) {
        let Plans { above_request: [hclk, pclk1, pclk2], above_cap, off: (least, most), .. } = self;
        say!(
            "plans: {} records; granted above its request: HCLK {hclk}, PCLK1 {pclk1}, PCLK2 \
             {pclk2}; a PCLK above its cap: {above_cap}; SYSCLK less its request, where P was \
             sought: {least} to {most}",
            self.table.total
        );
    }
}
