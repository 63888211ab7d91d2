//! Whether the oracle itself stands: the assertions found, the defaults, a plan, ratios that f32
//! rounds, the log of two runs of the Rust's own `freeze`, and the polls and the cut over one.

use hal::pac::register_file::{self, Event};
use hal::rcc::CFGR;

use crate::added::answers::to_the_rust;
use crate::added::refusals::Assertions;
use crate::added::starts::{start, Asked, Started};
use crate::cases::boundary_requests::PARTED;
use crate::cases::records::FULL;
use crate::compare::tally::Differences;
use crate::model::configuration::{at, DEFAULTS};
use crate::sizes::{PLACES, RUST_CONFIG, RUST_PLACES};

const DEFAULT_LOG: &str = "HSION=1; W1; SW=0; MCO1=0 MCO1PRE=0 MCO2=0 MCO2PRE=0; \
    LATENCY=0 OTHER=0; PPRE1=0 PPRE2=0 HPRE=0; SW=0; W8";

const FULL_LOG: &str = "HSION=1; W1; SW=0; HSEBYP=1; HSEON=1; W2; PLLON=0; \
    PLLM=25 PLLN=432 PLLP=0 PLLQ=9 PLLSRC=1; PWREN=1; VOS=1; PLLON=1; W3; ODEN=1; W4; \
    ODSWEN=1; W5; LSEBYP=1; LSEON=1; W6; LSION=1; W7; PLLSAIN=300 PLLSAIP=3 PLLSAIQ=7; \
    PLLSAION=1; CK48MSEL=1; PLLI2SN=200 PLLI2SR=3 PLLI2SQ=5; PLLI2SON=1; \
    MCO1=1 MCO1PRE=2 MCO2=3 MCO2PRE=4; LATENCY=7 OTHER=0; PPRE1=5 PPRE2=4 HPRE=8; SW=2; W8";

/// Starts of the full log by document 01: answers, limit, cut; refusal, cut, wait, polls.
const STARTS: [(&[u8], u32, u8, [u32; 4]); 9] = [
    (&[1; 8], 1, 255, [0, 0, 0, 8]),
    (&[1; 8], 1, 24, [0, 0, 0, 8]),
    (&[1; 8], 1, 23, [0, 1, 0, 7]),
    (&[], 1, 0, [0, 1, 0, 0]),
    (&[], 1, 1, [0, 1, 0, 0]),
    (&[], 65_535, 2, [12, 0, 1, 65_535]),
    (&[0, 2, 1, 255, 1, 1], 3, 10, [0, 1, 0, 6]),
    (&[0, 2, 1, 255, 1, 1], 3, 255, [12, 0, 4, 9]),
    (&[0, 2, 1, 255, 1, 1], 2, 255, [12, 0, 1, 2]),
];

/// Silent unless something is wrong, which counts as a difference.
pub fn run(assertions: &Assertions, differences: &mut Differences) {
    let mut hold = |what: &str, got: String, expected: String| {
        differences.compare(got, expected, || format!("self-test, {what}"));
    };
    let counts = format!("{:?}", assertions.counts());
    hold("assertions by refusal number", counts, "[0, 1, 1, 1, 1, 1, 8, 1, 1, 1, 1, 1]".into());
    let defaults = format!("{:?}", CFGR::defaults().numbers());
    hold("the Rust's defaults", defaults, format!("{:?}", &DEFAULTS[..RUST_CONFIG]));
    hold("a plan", planned(), "[8, 216, 0, 9] 216000000 [0, 5, 4, 7, 1, 1] true".into());
    for (sysclk, hclk, end) in PARTED {
        let ceilings = [sysclk.div_ceil(hclk), (sysclk as f32 / hclk as f32).ceil() as u32];
        let what = format!("ceilings of {sysclk} over {hclk}, exact and by f32");
        hold(&what, format!("{ceilings:?}"), format!("{:?}", [end + 1, end]));
    }
    hold("freeze of the defaults", frozen(CFGR::defaults()), DEFAULT_LOG.into());
    let mut full = FULL;
    // P so that PLLSAI's output is at most 48 MHz, and an HCLK that needs its prescaler.
    full[at::SAI_P] = 3;
    full[at::HCLK + 1] = 108_000_000;
    hold("freeze with all in use", frozen(to_the_rust(&full)), FULL_LOG.into());
    let log = register_file::look().1;
    for (answers, limit, cut, expected) in STARTS {
        let asked = Asked { answers: answers.to_vec(), limit, cut };
        let Started { refusal, cut, wait, polls } = start(&log, &[0; PLACES], &asked).0;
        let what = format!("start with {}", asked.told());
        hold(&what, format!("{:?}", [refusal, cut, wait, polls]), format!("{expected:?}"));
    }
}

/// HSI, 216 MHz and PLLQ sought: M, N, P code, Q; SYSCLK; the field codes; 48 MHz valid.
fn planned() -> String {
    let mut numbers = DEFAULTS;
    numbers[at::SYSCLK..at::SYSCLK + 2].copy_from_slice(&[1, 216_000_000]);
    numbers[at::CHOICE] = 1;
    let mut cfgr = to_the_rust(&numbers);
    cfgr.configure_pll();
    let (clocks, codes) = cfgr.derive();
    let (sysclk, valid) = (clocks.sysclk().raw(), clocks.is_pll48clk_valid());
    format!("{:?} {sysclk} {codes:?} {valid}", &cfgr.numbers()[at::M..=at::Q])
}

/// The log of a `freeze` over a file of 77s, and a word where the file is not as logged.
fn frozen(cfgr: CFGR) -> String {
    let before = [77; RUST_PLACES];
    register_file::load(before);
    cfgr.freeze();
    let (file, log) = register_file::look();
    let mut replayed = before;
    for event in &log {
        if let Event::Store(changes) = event {
            changes.iter().for_each(|&(place, value)| replayed[place as usize] = value);
        }
    }
    let told: Vec<String> = log.iter().map(tell).collect();
    let wrong = if file == replayed { "" } else { ", but another file" };
    format!("{}{wrong}", told.join("; "))
}

fn tell(event: &Event) -> String {
    match event {
        Event::Wait(number) => format!("W{number}"),
        Event::Store(changes) => {
            let told = changes.iter().map(|(place, value)| format!("{place:?}={value}"));
            told.collect::<Vec<String>>().join(" ")
        }
    }
}
