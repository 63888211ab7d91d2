//! Comparison 9: the start of a record over a register file, against the stores and waits of the
//! Rust's own `freeze`: whole, cut after each store, started again, not answered, and refused.

use crate::added::answers::{self, File, Frozen};
use crate::added::check;
use crate::added::record;
use crate::added::starts::{started, stored, stores, Asked, Started};
use crate::cases::boundary_records;
use crate::cases::boundary_requests;
use crate::cases::requests::Requests;
use crate::cases::starts as cases;
use crate::compare::run::Run;
use crate::compare::start_rows::{self, CUTS, ENDS, SECTIONS, WAITS};
use crate::library::{self, UNTOUCHED};
use crate::model::table::Table;
use crate::sizes::{CLOCKS, MOST_POLLS, PLACES};

/// The random configurations from which on each row must come out.
const ENOUGH: u64 = 20_000;

/// Random starts of each configuration that is accepted; a refused one has one.
const RANDOM: u32 = 4;

struct Starts<'a> {
    run: &'a mut Run,
    /// Starts, and the configurations that are accepted.
    table: Table,
    accepted: Table,
    /// The fewest and the most stores that the Rust had made where it refused with 9 to 11.
    stored: (usize, usize),
    /// What some start before left.
    earlier: File,
}

/// Compares each combination of sections, every boundary request and record, then random ones;
/// answers how many starts there were.
pub fn run(run: &mut Run, requests: &Requests) -> u64 {
    let table = Table::new("starts", &[ENDS, WAITS, CUTS]);
    let accepted = Table::new("configurations started", &[SECTIONS]);
    let stored = (usize::MAX, 0);
    let mut starts = Starts { run, table, accepted, stored, earlier: [0; PLACES] };
    starts.compare_sections();
    for numbers in boundary_requests::all() {
        starts.compare(&record::write(&numbers));
    }
    for record in boundary_records::all() {
        starts.compare(&record);
    }
    for _ in 0..starts.run.count {
        let Run { assertions, random, .. } = &mut *starts.run;
        let record = requests.record(assertions, random);
        starts.compare(&record);
    }
    let Starts { run, table, accepted, stored: (fewest, most), .. } = starts;
    say!("refused with 9 to 11: the Rust had made {fewest} to {most} stores by then");
    run.print(&accepted, ENOUGH);
    run.print(&table, ENOUGH);
    table.total
}

/// A record, and what the Rust makes of it over some file.
struct Case<'a> {
    record: &'a [u8],
    rust: Result<Frozen, u32>,
}

impl Starts<'_> {
    /// Each combination; for the last, which has all of them, also waits that are answered at
    /// the last poll, and the last of them one too late.
    fn compare_sections(&mut self) {
        let sections = boundary_requests::sections();
        let records: Vec<_> = sections.iter().map(record::write).collect();
        records.iter().for_each(|record| self.compare(record));
        let (accepted, all) = (self.accepted.total, records.len() as u64);
        self.run.differences.compare(accepted, all, || "combinations of sections".to_string());
        let first = [0; PLACES];
        let full = self.case(&records[records.len() - 1], &first);
        for limit in [1, 2, 1_000, MOST_POLLS] {
            for late in [false, true] {
                self.start(&full, &first, &Asked::at_the_last_poll(limit, late));
            }
        }
    }

    fn case<'r>(&self, record: &'r [u8], first: &File) -> Case<'r> {
        let rust = &self.run.assertions;
        let checked = check::checked(rust, record);
        Case { record, rust: checked.and_then(|n| answers::frozen(rust, &n, first)) }
    }

    fn compare(&mut self, record: &[u8]) {
        let first = cases::file(&mut self.run.random, &self.earlier);
        let case = self.case(record, &first);
        match &case.rust {
            Ok(frozen) => {
                self.every_cut(&case, frozen, &first);
                (0..RANDOM).for_each(|_| self.random_start(&case, &first));
            }
            Err(number) => {
                if (9..=11).contains(number) {
                    self.look_at_stored();
                }
                self.start(&case, &first, &Asked::answered(u8::MAX));
                self.random_start(&case, &first);
            }
        }
    }

    /// Never cut, and cut after each number of stores up to one above all, each time going on
    /// over what was left.
    fn every_cut(&mut self, case: &Case, frozen: &Frozen, first: &File) {
        let stores = stores(&frozen.log);
        self.accepted.count(&start_rows::of_sections(&stores));
        self.finish(case, frozen, first);
        for cut in 0..=stores.len() as u8 + 1 {
            let (started, left) = self.start(case, first, &Asked::answered(cut));
            if started.cut == 1 {
                self.finish(case, frozen, &left);
            }
        }
    }

    /// A start with every wait answered and never cut: the file expected of it is the Rust's last.
    fn finish(&mut self, case: &Case, frozen: &Frozen, first: &[u32]) {
        let (_, left) = self.start(case, first, &Asked::answered(u8::MAX));
        let what = || format!("last file of {:02x?} over {first:?}", case.record);
        self.run.differences.compare(&left[..], &frozen.last[..], what);
    }

    fn random_start(&mut self, case: &Case, first: &File) {
        let log = case.rust.as_ref().map_or(&[][..], |frozen| &frozen.log);
        let asked = cases::asked(&mut self.run.random, log);
        let file = cases::of_some_length(&mut self.run.random, first);
        let (started, left) = self.start(case, &file, &asked);
        match &case.rust {
            Ok(frozen) if started.refusal == 12 => self.finish(case, frozen, &left),
            _ => {}
        }
        self.earlier = left.try_into().unwrap_or(self.earlier);
    }

    /// One start, held against what is expected; answers what it came to and the file it left.
    fn start(&mut self, case: &Case, first: &[u32], asked: &Asked) -> (Started, Vec<u32>) {
        let ours = library::start(case.record, first, &asked.answers, asked.limit, asked.cut);
        let (came_to, file, clocks) = started(&case.rust, first, asked);
        let expected = (came_to, file, clocks.unwrap_or([UNTOUCHED; CLOCKS]));
        let mut rows = start_rows::of_start(&expected.0);
        if let (Ok(frozen), 1) = (&case.rust, expected.0.cut) {
            rows.push(start_rows::of_cut(&stores(&frozen.log), asked.cut));
        }
        self.table.count(&rows);
        let what = || format!("start of {:02x?} over {first:?}, {}", case.record, asked.told());
        self.run.differences.compare(&ours, &expected, what);
        (ours.0, ours.1)
    }

    /// What the Rust has stored by the time that it refuses; nothing of ours is.
    fn look_at_stored(&mut self) {
        let stored = stored();
        self.stored = (self.stored.0.min(stored), self.stored.1.max(stored));
    }
}
