//! The program as it would be over the Rust, to be timed: records from standard input, a line
//! for each to standard output.

use std::io::{self, BufWriter, Read, Write};

use hal::rcc::CFGR;

use crate::added::answers;
use crate::added::lines;
use crate::added::record;
use crate::model::clocks::Plan;
use crate::model::configuration::{at, Numbers};
use crate::model::limits::{within, BYPASS, FACTORS, OSCILLATOR, OTHER_VCO, REQUESTS};
use crate::model::ways::{self, p_divider, Way};
use crate::sizes::{MOST_RECORDS, RECORD};

const PIECE: usize = 1_024 * RECORD;

pub fn run() -> io::Result<()> {
    let (mut input, mut output) = (io::stdin().lock(), BufWriter::new(io::stdout().lock()));
    let mut piece = Vec::with_capacity(PIECE);
    let mut left = MOST_RECORDS * RECORD;
    loop {
        piece.clear();
        input.by_ref().take(PIECE.min(left) as u64).read_to_end(&mut piece)?;
        for record in piece.chunks(RECORD) {
            output.write_all(lines::line(&plan(record)).as_bytes())?;
        }
        left -= piece.len();
        if piece.len() < PIECE {
            return output.flush();
        }
    }
}

/// Nothing in it panics, as catching a panic takes as long as many a search: it is the Rust's own
/// search and `calculate_clocks`, with plain tests for 1 to 6 and 9 to 11 and the lines of
/// `pll_configure` about the search written anew.
fn plan(record: &[u8]) -> Result<Plan, u32> {
    let mut numbers = record::read(record)?;
    none(limits(&numbers))?;
    configure(&mut numbers)?;
    let clocks = answers::clocks_of(&numbers);
    none(other_plls(&numbers))?;
    Ok((numbers, clocks))
}

/// `pll_configure` without its panic: the search is the Rust's.
fn configure(numbers: &mut Numbers) -> Result<(), u32> {
    match ways::way(numbers) {
        Way::Neither => numbers[at::USE_PLL] = 0,
        Way::Kept => {}
        Way::Search { p, q } => {
            let found = CFGR::search(ways::input(numbers), p, q);
            let (m, n, p, q) = found.ok_or(7u32)?;
            numbers[at::M..=at::N].copy_from_slice(&[m, n]);
            if let Some(p) = p {
                numbers[at::USE_PLL] = 1;
                numbers[at::P] = p / 2 - 1;
            }
            numbers[at::Q] = q.unwrap_or(numbers[at::Q]);
        }
    }
    Ok(())
}

fn none(refusal: u32) -> Result<(), u32> {
    if refusal == 0 {
        Ok(())
    } else {
        Err(refusal)
    }
}

/// The least of 1 to 6 that holds, or 0.
fn limits(numbers: &Numbers) -> u32 {
    let hse = [(0, u32::MAX), OSCILLATOR, BYPASS];
    if !within(hse[numbers[at::HSE_KIND] as usize], numbers[at::HSE]) {
        return 1;
    }
    for (number, (flag, limits)) in (2..).zip(REQUESTS) {
        if numbers[flag] > 0 && !within(limits, numbers[flag + 1]) {
            return number;
        }
    }
    if FACTORS.iter().any(|&(place, limits, _)| !within(limits, numbers[place])) {
        6
    } else {
        0
    }
}

/// The least of 9 to 11 that holds, or 0, by the tests of `freeze`.
fn other_plls(config: &Numbers) -> u32 {
    let each = u64::from(ways::source(config) / config[at::M]);
    let vco = |n: usize| each * u64::from(config[n]);
    let outside = |n: usize| {
        let (low, high) = OTHER_VCO;
        !(u64::from(low)..=u64::from(high)).contains(&vco(n))
    };
    let output = vco(at::SAI_N) / u64::from(p_divider(config[at::SAI_P]));
    match (config[at::USE_SAI] > 0, config[at::USE_I2S] > 0) {
        (true, _) if outside(at::SAI_N) => 9,
        (true, _) if output > 48_000_000 => 10,
        (_, true) if outside(at::I2S_N) => 11,
        _ => 0,
    }
}
