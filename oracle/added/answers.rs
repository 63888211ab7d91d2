//! The Rust's answers with what is added to them: the refusal number where an assertion fails, and
//! the passes. All that the Rust sets, searches, plans or stores comes in here.

use hal::pac::register_file::{self, Event};
use hal::rcc::{self, CFGR};

use crate::added::check;
use crate::added::refusals::{Assertions, MALFORMED};
use crate::added::setters::Call;
use crate::model::clocks::{self, Clocks, Plan};
use crate::model::configuration::Numbers;
use crate::model::walk::{walk, Window};
use crate::model::ways::{self, Way};
use crate::sizes::{PLACES, RUST_CONFIG, RUST_PLACES, SEARCH};

/// M, N, P, Q as the Rust finds them.
type Found = Option<(u32, u32, Option<u32>, Option<u32>)>;

/// The Rust's configuration: it has no place for a number that is added.
pub fn to_the_rust(numbers: &Numbers) -> CFGR {
    CFGR::of_numbers(&std::array::from_fn(|place| numbers[place]))
}

/// Our numbers of the Rust's configuration, those added as they were given.
fn of_the_rust(cfgr: &CFGR, given: &Numbers) -> Numbers {
    let mut numbers = *given;
    numbers[..RUST_CONFIG].copy_from_slice(&cfgr.numbers());
    numbers
}

/// A setter call: the configuration after it; or 14 if there is no such setter or code, 6 if the
/// Rust's parameter can't hold the argument, or the Rust's 1 to 6.
pub fn set(rust: &Assertions, numbers: &Numbers, call: Call) -> Result<Numbers, u32> {
    if !call.is_known() {
        return Err(MALFORMED);
    }
    if !call.fits() {
        return Err(6);
    }
    rust.caught(|| of_the_rust(&call.of_the_rust(to_the_rust(numbers)), numbers))
}

/// The Rust's search alone, for any input.
pub fn found(rust: &Assertions, input: u32, p: Window, q: Window) -> Result<Found, u32> {
    rust.caught(|| CFGR::search(input, p, q))
}

/// The answer to a search: what the Rust found, and the passes, which it does not count.
pub fn searched(found: Result<Found, u32>, passes: u32) -> (u32, [u32; SEARCH]) {
    match found {
        Ok(Some((m, n, p, q))) => (0, [passes, m, n, p.unwrap_or(0), q.unwrap_or(0)]),
        Ok(None) => (7, [passes, 0, 0, 0, 0]),
        Err(number) => (number, [passes, 0, 0, 0, 0]),
    }
}

/// The passes of document 01's walk, 0 where no search runs.
pub fn passes(numbers: &Numbers) -> u32 {
    match ways::way(numbers) {
        Way::Search { p, q } => walk(ways::input(numbers), p, q).1[0],
        _ => 0,
    }
}

/// `pll_configure`: the configuration as planned, or 7.
pub fn configured(rust: &Assertions, numbers: &Numbers) -> Result<Numbers, u32> {
    rust.caught(|| {
        let mut cfgr = to_the_rust(numbers);
        cfgr.configure_pll();
        of_the_rust(&cfgr, numbers)
    })
}

/// `calculate_clocks`: the clocks of the settings as they stand, or 8.
pub fn derived(rust: &Assertions, numbers: &Numbers) -> Result<Clocks, u32> {
    rust.caught(|| clocks_of(numbers))
}

/// The clocks as numbers; it panics where `calculate_clocks` does.
pub fn clocks_of(numbers: &Numbers) -> Clocks {
    let (clocks, [hpre, ppre1, ppre2, waits, overdrive, scale]) = to_the_rust(numbers).derive();
    let [sysclk, hclk, pclk1, pclk2, timclk1, timclk2, valid, hse, lse, lsi] = handed(clocks);
    [
        sysclk, hclk, pclk1, pclk2, timclk1, timclk2, hpre, ppre1, ppre2, waits, scale, overdrive,
        valid, hse, lse, lsi,
    ]
}

/// The frequencies, whether the 48 MHz clock is valid, and HSE, LSE, LSI (0 where absent).
fn handed(clocks: rcc::Clocks) -> [u32; 10] {
    [
        clocks.sysclk().raw(),
        clocks.hclk().raw(),
        clocks.pclk1().raw(),
        clocks.pclk2().raw(),
        clocks.timclk1().raw(),
        clocks.timclk2().raw(),
        u32::from(clocks.is_pll48clk_valid()),
        clocks.hse().map_or(0, |hse| hse.raw()),
        clocks.lse().map_or(0, |lse| lse.raw()),
        clocks.lsi().map_or(0, |lsi| lsi.raw()),
    ]
}

/// No refusal's number: `freeze` handed back other clocks than `calculate_clocks`.
const OTHER_CLOCKS: u32 = 20_000;

pub type File = [u32; PLACES];

/// What `freeze` came to over a register file.
pub struct Frozen {
    pub plan: Plan,
    /// The stores and waits that it made, and the file that it left.
    pub log: Vec<Event>,
    pub last: File,
}

/// `freeze` itself on a configuration within its limits, or its 7, 9, 10 or 11. A place, a store or
/// a wait that the Rust does not have would be added here to what it left.
pub fn frozen(rust: &Assertions, numbers: &Numbers, first: &File) -> Result<Frozen, u32> {
    register_file::load(std::array::from_fn(|place| first[place]));
    let handed = rust.caught(|| handed(to_the_rust(numbers).freeze()))?;
    let (stored, log) = register_file::look();
    let mut last = *first;
    last[..RUST_PLACES].copy_from_slice(&stored);
    let config = configured(rust, numbers)?;
    let clocks = derived(rust, &config)?;
    if handed != [&clocks[..clocks::at::HPRE], &clocks[clocks::at::VALID..]].concat()[..] {
        return Err(OTHER_CLOCKS);
    }
    Ok(Frozen { plan: (config, clocks), log, last })
}

/// A whole plan of a configuration within its limits, or 7, 9, 10 or 11.
pub fn planned(rust: &Assertions, numbers: &Numbers) -> Result<Plan, u32> {
    frozen(rust, numbers, &[0; PLACES]).map(|frozen| frozen.plan)
}

/// The plan of a configuration that was checked, or its refusal, and the passes of the search that
/// runs for it.
pub fn plan_and_passes(
    rust: &Assertions,
    checked: &Result<Numbers, u32>,
) -> (Result<Plan, u32>, u32) {
    match checked {
        Ok(numbers) => (planned(rust, numbers), passes(numbers)),
        Err(number) => (Err(*number), 0),
    }
}

/// The plan of a record, or its refusal.
pub fn plan_of(rust: &Assertions, record: &[u8]) -> Result<Plan, u32> {
    planned(rust, &check::checked(rust, record)?)
}
