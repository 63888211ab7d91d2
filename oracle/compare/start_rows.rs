//! The rows that a start comes under: how it ended, the wait that was not answered, the last
//! store before the cut, and the sections of the list that its configuration has.

use crate::added::starts::{Place, Started};
use crate::model::rows::numbered;
use crate::model::table::{Group, Row};

/// All refusals but 8, which a start never has.
pub const ENDS: Group = (
    "end",
    &["done", "cut", "1", "2", "3", "4", "5", "6", "7", "9", "10", "11", "12", "13", "14"],
);

pub const WAITS: Group = ("wait that was not answered", &["1", "2", "3", "4", "5", "6", "7", "8"]);

/// A store by the first place that it names; SW and PLLON are stored twice.
pub const CUTS: Group = (
    "last store before the cut",
    &[
        "none", "HSION", "first SW", "HSEBYP", "HSEON", "first PLLON", "PLLM", "PWREN", "VOS",
        "PLLON", "ODEN", "ODSWEN", "LSEBYP", "LSEON", "LSION", "PLLSAIN", "PLLSAION", "CK48MSEL",
        "PLLI2SN", "PLLI2SON", "MCO1", "LATENCY", "PPRE1", "SW",
    ],
);

pub const SECTIONS: Group = (
    "section of the list",
    &[
        "HSE", "PLL", "over-drive", "LSE", "LSI", "PLLSAI", "48 MHz choice", "PLLI2S",
        "none of them",
    ],
);

/// The place that only the stores of a section name, in the order of `SECTIONS`.
const OF_SECTIONS: [Place; 8] = [
    Place::HSEON, Place::PLLM, Place::ODEN, Place::LSEON, Place::LSION, Place::PLLSAION,
    Place::CK48MSEL, Place::PLLI2SON,
];

pub fn of_start(started: &Started) -> Vec<Row> {
    let end = match started {
        Started { refusal: 0, cut: 0, .. } => "done",
        Started { refusal: 0, .. } => "cut",
        Started { refusal, .. } => numbered(*refusal),
    };
    vec![(ENDS.0, end), (WAITS.0, numbered(started.wait))]
}

/// For a cut after so many of a list's stores.
pub fn of_cut(stores: &[Place], cut: u8) -> Row {
    let (made, left) = stores.split_at(usize::from(cut));
    let name = match made.last() {
        None => "none".to_string(),
        Some(last) if left.contains(last) => format!("first {last:?}"),
        Some(last) => format!("{last:?}"),
    };
    (CUTS.0, CUTS.1.iter().find(|row| **row == name).unwrap_or(&"unknown"))
}

pub fn of_sections(stores: &[Place]) -> Vec<Row> {
    let has = |&section: &usize| stores.contains(&OF_SECTIONS[section]);
    let mut rows: Vec<Row> =
        (0..8).filter(has).map(|section| (SECTIONS.0, SECTIONS.1[section])).collect();
    if rows.is_empty() {
        rows.push((SECTIONS.0, SECTIONS.1[8]));
    }
    rows
}
