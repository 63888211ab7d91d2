//! The rows that an answer comes under: its refusal, each row of document 01's
//! section "Derived clocks", and the way through `pll_configure`.

use crate::model::clocks::{at, Clocks};
use crate::model::configuration::{at as given, Numbers};
use crate::model::table::{Group, Row};
use crate::model::ways::{way, Way};

const NUMBERS: [&str; 16] =
    ["0", "1", "2", "3", "4", "5", "6", "7", "8", "9", "10", "11", "12", "13", "14", "15"];

const REFUSAL: &str = "refusal number";
const WAY: &str = "way through pll_configure";

/// All refusals but 8, which a plan never has.
pub const OF_PLAN: Group =
    (REFUSAL, &["0", "1", "2", "3", "4", "5", "6", "7", "9", "10", "11", "14"]);
pub const OF_CONFIGURE: Group = (REFUSAL, &["0", "1", "2", "3", "4", "5", "6", "7", "14"]);
pub const OF_DERIVE: Group = (REFUSAL, &["0", "1", "2", "3", "4", "5", "6", "8", "14"]);

pub const WAYS: Group = (
    WAY,
    &[
        "neither window",
        "neither window and use_pll set",
        "kept",
        "kept with use_pll",
        "P search",
        "P search with use_pll",
        "Q search",
        "Q search with use_pll",
        "P and Q search",
        "P and Q search with use_pll",
        "no answer",
    ],
);

pub const CLOCKS: [Group; 9] = [
    ("HPRE code", &["0", "8", "9", "10", "11", "12", "13", "14", "15"]),
    ("PPRE1 code", &["0", "4", "5", "6", "7"]),
    ("PPRE2 code", &["0", "4", "5", "6", "7"]),
    ("wait states", &["0", "1", "2", "3", "4", "5", "6", "7"]),
    ("voltage scale", &["1", "2", "3"]),
    ("over-drive", &["0", "1"]),
    ("cap that decides PCLK1", &["none", "45 MHz", "54 MHz"]),
    ("cap that decides PCLK2", &["none", "90 MHz", "108 MHz"]),
    (
        "48 MHz clock",
        &[
            "no choice",
            "PLLQ valid",
            "PLLQ not valid",
            "PLLSAI valid",
            "PLLSAI not valid",
            "PLLSAI not used",
        ],
    ),
];

/// A number beyond the refusals has no row; it is told as a difference.
pub fn refusal(number: u32) -> Row {
    (REFUSAL, numbered(number))
}

pub fn numbered(number: u32) -> &'static str {
    NUMBERS.get(number as usize).unwrap_or(&"none")
}

/// The way that a configuration within its limits takes.
pub fn of_way(numbers: &Numbers, answered: bool) -> Row {
    let first = match way(numbers) {
        _ if !answered => 10,
        Way::Neither => 0,
        Way::Kept => 2,
        Way::Search { q: None, .. } => 4,
        Way::Search { p: None, .. } => 6,
        Way::Search { .. } => 8,
    };
    let with_pll = answered && numbers[given::USE_PLL] > 0;
    (WAY, WAYS.1[first + usize::from(with_pll)])
}

/// The rows of clocks that were derived from a configuration as it stands.
pub fn of_clocks(config: &Numbers, clocks: &Clocks) -> [Row; 9] {
    let numbered = |group: usize, place: usize| (CLOCKS[group].0, numbered(clocks[place]));
    let capped = |group: usize, place: usize| (CLOCKS[group].0, cap(config, clocks, place));
    [
        numbered(0, at::HPRE),
        numbered(1, at::PPRE1),
        numbered(2, at::PPRE2),
        numbered(3, at::WAITS),
        numbered(4, at::SCALE),
        numbered(5, at::OVERDRIVE),
        capped(6, at::PCLK1),
        capped(7, at::PCLK2),
        (CLOCKS[8].0, valid(config, clocks)),
    ]
}

/// The cap in hertz of a bus clock, PCLK1 or PCLK2.
pub fn cap_hertz(clocks: &Clocks, place: usize) -> u32 {
    let by_bus = if place == at::PCLK1 { 1 } else { 2 };
    by_bus * if clocks[at::SYSCLK] <= 180_000_000 { 45_000_000 } else { 54_000_000 }
}

fn cap(config: &Numbers, clocks: &Clocks, place: usize) -> &'static str {
    let flag = if place == at::PCLK1 { given::PCLK1 } else { given::PCLK2 };
    let wanted = if config[flag] > 0 { config[flag + 1] } else { clocks[at::HCLK] };
    match cap_hertz(clocks, place) {
        cap if wanted <= cap => "none",
        45_000_000 => "45 MHz",
        54_000_000 => "54 MHz",
        90_000_000 => "90 MHz",
        _ => "108 MHz",
    }
}

fn valid(config: &Numbers, clocks: &Clocks) -> &'static str {
    match (config[given::CHOICE], config[given::USE_SAI] > 0, clocks[at::VALID] > 0) {
        (0, _, _) => "no choice",
        (1, _, true) => "PLLQ valid",
        (1, _, false) => "PLLQ not valid",
        (_, true, true) => "PLLSAI valid",
        (_, true, false) => "PLLSAI not valid",
        (_, false, _) => "PLLSAI not used",
    }
}
