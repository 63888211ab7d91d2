//! How many records a second the program and the Rust plan: each as a program of its own that
//! reads the same file and writes its lines to another, by turns.

use std::fs::{self, File};
use std::hint::black_box;
use std::io::{Error, Result};
use std::path::Path;
use std::process::{Command, Stdio};
use std::time::Instant;

use crate::added::refusals::Assertions;
use crate::cases::fleet::{self, Mixture};
use crate::library;
use crate::rust::panics;
use crate::sizes::{MOST_RECORDS, RECORD};

const RECORDS: u64 = 200_000;
const SEED: u64 = 1;

/// Of so many timings the least is taken, for both: what else the machine does only adds, and to a
/// short run the most.
const TIMINGS: usize = 9;

/// The records of the files by which the program's time is seen to grow.
const SIZES: [usize; 5] = [0, 1_000, 10_000, 100_000, MOST_RECORDS];

/// How much faster we are depends on how many records make the Rust search: so not only a fleet
/// is timed.
const MIXTURES: [(&str, Mixture); 3] =
    [("fleet", fleet::FLEET), ("boards", fleet::BOARDS), ("every kind", fleet::EVERY_KIND)];

/// Works in a folder; `planner` are the words that start the program. Answers whether both wrote
/// the same.
pub fn run(folder: &Path, planner: &[String]) -> Result<bool> {
    panics::install();
    let this = std::env::current_exe()?.display().to_string();
    let rust = [this, "plans".to_string()];
    let assertions = Assertions::of_the_rust();
    say!("plans, records a second, file to file (ratio: ours over the Rust's, above 1 is faster)");
    let mut same = true;
    for (name, mixture) in MIXTURES {
        let all = fleet::records(&assertions, mixture, RECORDS, SEED);
        let accepted: Vec<u8> = all.chunks(RECORD).filter(is_accepted).flatten().copied().collect();
        for (part, records) in [("all", all), ("accepted", accepted)] {
            let file = folder.join(format!("{name} {part}.records"));
            fs::write(&file, &records)?;
            let (ours, equal) = race(&format!("{name}, {part}"), &file, &rust, planner)?;
            say_parts(1e9 / ours, time_unplanned(&file, records.len(), planner)?, &records);
            same &= equal;
        }
    }
    let all = fleet::records(&assertions, fleet::FLEET, MOST_RECORDS as u64, SEED);
    grow(folder, &all, planner)?;
    Ok(same)
}

/// What the program takes for the first records of a fleet, as the file grows to all of them: the
/// files by turns, so that what else the machine does meets all alike.
fn grow(folder: &Path, all: &[u8], planner: &[String]) -> Result<()> {
    let files = SIZES.map(|records| folder.join(format!("first {records}.records")));
    for (file, records) in files.iter().zip(SIZES) {
        fs::write(file, &all[..records * RECORD])?;
    }
    let mut timings = [[0.0; TIMINGS]; SIZES.len()];
    for turn in 0..TIMINGS {
        for (file, timing) in files.iter().zip(&mut timings) {
            timing[turn] = time(planner, file, &file.with_extension("lines"))?;
        }
    }
    let seconds = timings.map(least);
    let each = |place: usize| 1e9 * (seconds[place] - seconds[0]) / SIZES[place] as f64;
    say!("the program as the file grows: no record {:.3} ms", 1e3 * seconds[0]);
    for (place, records) in SIZES.into_iter().enumerate().skip(1) {
        let (ms, each) = (1e3 * seconds[place], each(place));
        say!("{records:8} records {ms:8.3} ms, on top of no record {each:.0} ns each");
    }
    say!("one of 1000000 records over one of 10000: {:.3}", each(4) / each(2));
    Ok(())
}

fn is_accepted(record: &&[u8]) -> bool {
    library::plan(record).0 == 0
}

/// Times both on one file; answers our records a second, and whether the lines are the same.
fn race(name: &str, file: &Path, rust: &[String], ours: &[String]) -> Result<(f64, bool)> {
    let (rust_lines, our_lines) = (file.with_extension("rust"), file.with_extension("ours"));
    let mut timings = [(0.0, 0.0); TIMINGS];
    for timing in &mut timings {
        *timing = (time(rust, file, &rust_lines)?, time(ours, file, &our_lines)?);
    }
    let records = fs::metadata(file)?.len() as f64 / RECORD as f64;
    let rust = records / least(timings.map(|timing| timing.0));
    let ours = records / least(timings.map(|timing| timing.1));
    let same = fs::read(rust_lines)? == fs::read(our_lines)?;
    let (ratio, word) = (ours / rust, if same { "the same lines" } else { "DIFFERENT LINES" });
    say!(
        "{name:20} {records:6} records: the Rust {rust:8.0}  ours {ours:8.0}  ratio {ratio:5.2}, \
         {word}"
    );
    Ok((ours, same))
}

/// Seconds of a program from its start to its end.
fn time(words: &[String], input: &Path, output: &Path) -> Result<f64> {
    let (input, output) = (File::open(input)?, File::create(output)?);
    let mut program = Command::new(&words[0]);
    program.args(&words[1..]).stdin(Stdio::from(input)).stdout(Stdio::from(output));
    let start = Instant::now();
    let status = program.status()?;
    let seconds = start.elapsed().as_secs_f64();
    match status.success() {
        true => Ok(seconds),
        false => Err(Error::other(format!("{words:?} ended with {status}"))),
    }
}

/// Our nanoseconds for as many records that are read, checked and answered, and not planned: all
/// bytes are 0, so M is refused with 6.
fn time_unplanned(file: &Path, length: usize, ours: &[String]) -> Result<f64> {
    let (file, lines) = (file.with_extension("zeros"), file.with_extension("refused"));
    fs::write(&file, vec![0; length])?;
    let mut timings = [0.0; TIMINGS];
    for timing in &mut timings {
        *timing = time(ours, &file, &lines)?;
    }
    Ok(least(timings) * 1e9 * RECORD as f64 / length as f64)
}

/// Where our time goes: the program's, and that of the functions for C on the same records in
/// this process. The program is compiled as one module, so it need not be their sum.
fn say_parts(program: f64, unplanned: f64, records: &[u8]) {
    let each = |call: fn(&[u8]) -> u32| {
        let timings = [(); TIMINGS].map(|()| {
            let start = Instant::now();
            for record in records.chunks(RECORD) {
                black_box(call(black_box(record)));
            }
            start.elapsed().as_secs_f64()
        });
        least(timings) * 1e9 * RECORD as f64 / records.len() as f64
    };
    let check = each(library::check);
    let plan = each(|record| library::plan(record).0);
    let line = each(|record| library::line(record).0);
    let (planning, text) = (plan - check, line - plan);
    say!(
        "    ours, ns a record: {program:.0}, and {unplanned:.0} where all are refused with 6; by \
         the functions for C: record and check {check:.0}, plan {planning:.0}, text {text:.0}"
    );
}

fn least(timings: [f64; TIMINGS]) -> f64 {
    timings.into_iter().fold(f64::INFINITY, f64::min)
}
