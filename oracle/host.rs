//! The host: runs the static library beside the unchanged Rust, and writes what the Rust alone
//! answers. `USAGE` says how it is called.
//!
//! No modules use one another in a circle, and each folder uses only those before it (.ci/circle):
//! sizes, say, rust, model, added, library, cases, compare, timing.

#[macro_use]
mod say;

mod added;
mod cases;
mod compare;
mod library;
mod model;
mod rust;
mod sizes;
mod timing;

use std::fmt::Arguments;
use std::fs;
use std::io::{self, Read, Write};
use std::path::Path;
use std::process::ExitCode;

use added::lines;
use added::refusals::Assertions;
use cases::damage::Damage;
use cases::random::Random;
use cases::requests::Requests;
use cases::{fleet, sample};
use compare::run::Run;
use rust::panics;
use timing::rust_program;

const USAGE: &str = "usage: host WORDS
  compare COUNT SEED          the library beside the Rust, but for starts
  starts COUNT SEED           starts beside the Rust's
  damage COUNT SEED           damaged records and random bytes
  sample FILE                 the records of the gate's sample
  fleet COUNT SEED FILE       the records of a fleet
  damaged COUNT SEED FILE     damaged records and a short tail
  lines                       the Rust's lines for the records of standard input
  bench FOLDER PLANNER..      times, PLANNER being the words that start the program
  plans                       the program over the Rust, to be timed";

fn main() -> ExitCode {
    let words: Vec<String> = std::env::args().skip(1).collect();
    let first: Vec<&str> = words.iter().map(String::as_str).collect();
    let number = |place: usize| words.get(place).and_then(|word| word.parse::<u64>().ok());
    let done = match (first.as_slice(), number(1), number(2)) {
        (["compare", _, _], Some(count), Some(seed)) => Ok(compare(count, seed)),
        (["starts", _, _], Some(count), Some(seed)) => Ok(starts(count, seed)),
        (["damage", _, _], Some(count), Some(seed)) => Ok(damage(count, seed)),
        (["sample", file], ..) => sample(file),
        (["fleet", _, _, file], Some(count), Some(seed)) => fleet(count, seed, file),
        (["damaged", _, _, file], Some(count), Some(seed)) => damaged(count, seed, file),
        (["lines"], ..) => lines(),
        (["bench", folder, _, ..], ..) => bench(Path::new(folder), &words[2..]),
        (["plans"], ..) => rust_program::run().map(|()| true),
        _ => {
            eprintln!("{USAGE}");
            return ExitCode::from(2);
        }
    };
    let went_well = done.unwrap_or_else(|error| {
        eprintln!("host {}: {error}", words.join(" "));
        false
    });
    ExitCode::from(u8::from(!went_well))
}

/// A run that has tested the oracle itself.
fn begun(count: u64, seed: u64) -> Run {
    panics::install();
    let mut run = Run::new(count, seed);
    compare::self_test::run(&run.assertions, &mut run.differences);
    run
}

/// Tells what was compared and how it came out; answers whether all was equal.
fn ended(run: &Run, seed: u64, what: Arguments) -> bool {
    let outcome = match run.differences.0 {
        0 => "all equal".to_string(),
        1 => "1 difference".to_string(),
        several => format!("{several} differences"),
    };
    say!("compared with the Rust: {what}: {outcome} (seed {seed})");
    run.differences.0 == 0
}

/// The boundary lists whole and `count` random cases in each of the eight comparisons but that
/// of starts; answers whether all were equal.
fn compare(count: u64, seed: u64) -> bool {
    let run = &mut begun(count, seed);
    let calls = compare::setters::run(run);
    let checks = compare::checks::run(run);
    let searches = compare::searches::run(run);
    let outputs = compare::outputs::run(run);
    let requests = &Requests::new();
    let configures = compare::configures::run(run, requests);
    let derives = compare::derives::run(run, requests);
    let plans = compare::plans::run(run, requests);
    let lines = compare::lines::run(run, requests);
    let what = format_args!(
        "{calls} setter calls, {checks} checks, {searches} searches, {outputs} outputs, \
         {configures} configures, {derives} derives, {plans} plans, {lines} lines"
    );
    ended(run, seed, what)
}

/// The boundary lists whole and `count` random configurations, each started many times; answers
/// whether all were equal.
fn starts(count: u64, seed: u64) -> bool {
    let run = &mut begun(count, seed);
    let starts = compare::starts::run(run, &Requests::new());
    ended(run, seed, format_args!("{starts} starts"))
}

/// `count` damaged records, each planned and written as a line; answers whether all were equal.
fn damage(count: u64, seed: u64) -> bool {
    let run = &mut begun(count, seed);
    let damage = &Damage::new(&run.assertions, seed);
    let records = compare::damaged::run(run, damage);
    ended(run, seed, format_args!("{records} damaged records"))
}

fn sample(file: &str) -> io::Result<bool> {
    panics::install();
    match sample::records(&Assertions::of_the_rust()) {
        Ok(records) => fs::write(file, records).map(|()| true),
        Err(missing) => {
            eprintln!("the sample has no record for {missing:?}");
            Ok(false)
        }
    }
}

fn fleet(count: u64, seed: u64, file: &str) -> io::Result<bool> {
    panics::install();
    let records = fleet::records(&Assertions::of_the_rust(), fleet::FLEET, count, seed);
    fs::write(file, records).map(|()| true)
}

fn damaged(count: u64, seed: u64, file: &str) -> io::Result<bool> {
    panics::install();
    let damage = Damage::new(&Assertions::of_the_rust(), seed);
    fs::write(file, damage.file(count, &mut Random::new(seed))).map(|()| true)
}

fn lines() -> io::Result<bool> {
    panics::install();
    let mut records = Vec::new();
    io::stdin().read_to_end(&mut records)?;
    let lines = lines::of_records(&Assertions::of_the_rust(), &records);
    io::stdout().write_all(lines.as_bytes()).map(|()| true)
}

fn bench(folder: &Path, planner: &[String]) -> io::Result<bool> {
    timing::searches::run();
    timing::plans::run(folder, planner)
}
