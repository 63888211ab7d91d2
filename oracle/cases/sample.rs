//! The gate's sample: records, the same in every run, that bring out each refusal, each row of
//! the derived clocks and each way through `pll_configure`, and a short tail after them.

use crate::added::answers;
use crate::added::check;
use crate::added::record;
use crate::added::refusals::Assertions;
use crate::cases::boundary_records;
use crate::cases::boundary_requests;
use crate::cases::random::Random;
use crate::cases::requests::Requests;
use crate::model::rows;
use crate::model::table::{Row, Table};
use crate::sizes::RECORD;

const RANDOM: usize = 2_600;

/// Of the boundary lists, which are long, one in so many.
const OF_REQUESTS: usize = 7;
const OF_RECORDS: usize = 97;

const TAIL: usize = 5;

/// The records and the tail, or the rows that do not come out.
pub fn records(rust: &Assertions) -> Result<Vec<u8>, Vec<Row>> {
    let (requests, mut random) = (Requests::new(), Random::new(1));
    let boundary = boundary_requests::lists().into_iter().step_by(OF_REQUESTS);
    let chosen = boundary_requests::examples().into_iter().chain(boundary);
    let mut records: Vec<Vec<u8>> =
        chosen.map(|numbers| record::write(&numbers).to_vec()).collect();
    let damaged = boundary_records::all().into_iter().step_by(OF_RECORDS);
    records.extend(damaged.filter(|record| record.len() == RECORD));
    let any = std::iter::repeat_with(|| requests.record(rust, &mut random));
    records.extend(any.filter(|record| record.len() == RECORD).take(RANDOM));
    let missing = missing(rust, &records);
    records.push(vec![0; TAIL]);
    if missing.is_empty() {
        Ok(records.concat())
    } else {
        Err(missing)
    }
}

/// The rows that none of the records comes under.
fn missing(rust: &Assertions, records: &[Vec<u8>]) -> Vec<Row> {
    let groups = [&[rows::OF_PLAN, rows::WAYS], &rows::CLOCKS[..]].concat();
    let mut table = Table::new("sample", &groups);
    for record in records {
        let plan = answers::plan_of(rust, record);
        let number = plan.err().unwrap_or(0);
        let mut of_record = vec![rows::refusal(number)];
        if let Ok(numbers) = check::checked(rust, record) {
            of_record.push(rows::of_way(&numbers, number != 7));
        }
        if let Ok((config, clocks)) = plan {
            of_record.extend(rows::of_clocks(&config, &clocks));
        }
        table.count(&of_record);
    }
    table.missing()
}
