//! The program's lines, which the Rust does not have: that of a plan, and those for a stream of
//! records.

use std::fmt::Write;

use crate::added::answers;
use crate::added::refusals::Assertions;
use crate::model::clocks::{at, Plan};
use crate::model::configuration::at as given;
use crate::model::ways::p_divider;
use crate::sizes::{MOST_RECORDS, QUANTITIES, RECORD};

/// The numbers of a plan's line, in its order.
fn quantities((config, clocks): &Plan) -> [u32; QUANTITIES] {
    let [sysclk, hclk, pclk1, pclk2, timclk1, timclk2, ..] = *clocks;
    let [m, n, p, q] = [given::M, given::N, given::P, given::Q].map(|place| config[place]);
    let [waits, scale, overdrive, valid] =
        [at::WAITS, at::SCALE, at::OVERDRIVE, at::VALID].map(|place| clocks[place]);
    [
        sysclk, hclk, pclk1, pclk2, timclk1, timclk2, m, n, p_divider(p), q, waits, scale,
        overdrive, valid,
    ]
}

/// Document 01's line, with its newline, for a plan or a refusal.
pub fn line(plan: &Result<Plan, u32>) -> String {
    let mut line = String::new();
    let mut put = |word: &str, numbers: &[u32]| {
        line.push_str(word);
        numbers.iter().for_each(|number| {
            write!(line, " {number}").expect("a string takes any text");
        });
        line.push('\n');
    };
    match plan {
        Ok(plan) => put("ok", &quantities(plan)),
        Err(number) => put("no", &[*number]),
    }
    line
}

/// What the program must write, by the Rust's plans: a line for each whole record up to the
/// millionth, and one for a short tail before it.
pub fn of_records(rust: &Assertions, records: &[u8]) -> String {
    let pieces = records.chunks(RECORD).take(MOST_RECORDS);
    pieces.map(|record| line(&answers::plan_of(rust, record))).collect()
}
