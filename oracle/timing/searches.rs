//! How long a search takes, the Rust's and ours, on the same inputs in the same
//! run: for each kind of search the median of five timings.

use std::hint::black_box;
use std::time::Instant;

use hal::rcc::CFGR;

use crate::cases::random::Random;
use crate::cases::searches::{self, Case};
use crate::library;
use crate::model::walk::{vco, walk, Window, P_DIVIDERS};
use crate::model::ways::{wanted, USB};

/// Each timing lasts at least so long for the slower of the two.
const SECONDS: f64 = 0.2;
const TIMINGS: usize = 5;
const CASES: usize = 256;

/// A kind of search: its name, how a case is made, and which refusal and passes it comes to.
type Kind = (&'static str, fn(&mut Random) -> Case, fn(u32, u32) -> bool);

const KINDS: [Kind; 11] = [
    ("first pair is good", near_2_mhz, |no, passes| no == 0 && passes == 1),
    ("found in 2 passes", near_2_mhz, |no, passes| no == 0 && passes == 2),
    ("found in 2 to 20 passes", near_2_mhz, |no, passes| no == 0 && passes > 1 && passes <= 20),
    ("found after 200 passes", p_only, |no, passes| no == 0 && passes > 200),
    ("no answer with P", p_only, |no, passes| no == 7 && passes > 1),
    ("no answer with Q", q_point, |no, passes| no == 7 && passes > 1),
    ("P and Q", p_and_q, |no, _| no == 0),
    ("Q only", q_only, |no, _| no == 0),
    ("wide windows", wide, |no, _| no == 0),
    ("low above high", low_above_high, |no, passes| no == 7 && passes > 1),
    ("mixed", searches::usual, |_, _| true),
];

/// Inputs for which M = 2 fits and few N are too large.
fn near_2_mhz(random: &mut Random) -> Case {
    let input = random.within(2_000_000, 2_080_000);
    let output = vco(input, 2, random.within(412, 432)) as u32 / random.one_of(&P_DIVIDERS);
    Case { input, p: wanted(output), q: None }
}

fn p_only(random: &mut Random) -> Case {
    Case { q: None, ..searches::usual(random) }
}

fn p_and_q(random: &mut Random) -> Case {
    Case { q: Some(USB), ..searches::usual(random) }
}

fn q_only(random: &mut Random) -> Case {
    Case { input: searches::usual_input(random), p: None, q: Some(USB) }
}

fn q_point(random: &mut Random) -> Case {
    let at = random.within(4_000_000, 216_000_000);
    Case { input: searches::usual_input(random), p: None, q: Some((at, at)) }
}

fn wide(random: &mut Random) -> Case {
    let mut window = |least: u32| -> Window {
        let low = random.within(least, 100_000_000);
        Some((low, low + random.within(5_000_000, 50_000_000)))
    };
    let (p, q) = (window(10_000_000), window(5_000_000));
    Case { input: searches::usual_input(random), p, q }
}

fn low_above_high(random: &mut Random) -> Case {
    let high = searches::usual_sysclk(random);
    Case { input: searches::usual_input(random), p: Some((high + 1, high)), q: None }
}

/// Prints a line for each kind and, last, the ratios of the mixed kind and of the worst.
pub fn run() {
    say!("search, ns each (ratio: ours over the Rust's, below 1 is faster)");
    let ratios: Vec<f64> = KINDS.iter().map(time_kind).collect();
    let worst = (0..KINDS.len()).max_by(|&i, &j| ratios[i].total_cmp(&ratios[j])).unwrap_or(0);
    say!(
        "ours over the Rust's: mixed {:.3}, worst {:.3} ({})",
        ratios[KINDS.len() - 1],
        ratios[worst],
        KINDS[worst].0
    );
}

fn time_kind((name, make, is_of_kind): &Kind) -> f64 {
    let cases = cases_of(*make, *is_of_kind);
    let rust = |case: &Case| CFGR::search(case.input, case.p, case.q);
    let ours = |case: &Case| library::search(case.input, case.p, case.q);
    let mut rounds = 1;
    loop {
        let slower = time(&cases, rounds, rust).max(time(&cases, rounds, ours));
        if slower >= SECONDS {
            break;
        }
        // A little more than it seems to take, and at most a hundredfold of a rough guess.
        rounds = (rounds as f64 * (1.1 * SECONDS / slower).min(100.0)).ceil() as usize;
    }
    let timings = [(); TIMINGS].map(|()| (time(&cases, rounds, rust), time(&cases, rounds, ours)));
    let each = 1e9 / (cases.len() * rounds) as f64;
    let rust = median(timings.map(|timing| timing.0)) * each;
    let ours = median(timings.map(|timing| timing.1)) * each;
    say!("{:24} the Rust {rust:9.1}  ours {ours:9.1}  ratio {:6.3}", name, ours / rust);
    ours / rust
}

/// Cases of the kind, the same in every run.
fn cases_of(make: fn(&mut Random) -> Case, is_of_kind: fn(u32, u32) -> bool) -> Vec<Case> {
    let mut random = Random::new(1);
    let mut cases = Vec::new();
    while cases.len() < CASES {
        let case = make(&mut random);
        let (refusal, [passes, ..]) = walk(case.input, case.p, case.q);
        if is_of_kind(refusal, passes) {
            cases.push(case);
        }
    }
    cases
}

/// Seconds for all the cases, `rounds` times over.
fn time<T>(cases: &[Case], rounds: usize, search: impl Fn(&Case) -> T) -> f64 {
    let start = Instant::now();
    for _ in 0..rounds {
        for case in cases {
            black_box(search(black_box(case)));
        }
    }
    start.elapsed().as_secs_f64()
}

fn median(mut timings: [f64; TIMINGS]) -> f64 {
    timings.sort_by(f64::total_cmp);
    timings[TIMINGS / 2]
}
