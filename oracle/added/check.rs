//! The check of a record: 14, or the least refusal among the Rust's assertions when each value is
//! put through its setter.

use hal::rcc::CFGR;

use crate::added::record;
use crate::added::refusals::Assertions;
use crate::added::setters::{Call, HSE};
use crate::model::configuration::{at, Numbers};

/// Setters of the requests, and the number that is the request's flag.
const REQUEST_SETTERS: [(u32, usize); 4] =
    [(1, at::HCLK), (2, at::SYSCLK), (3, at::PCLK1), (4, at::PCLK2)];

/// Setters of the factors and dividers, and the number that they set.
const FACTOR_SETTERS: [(u32, usize); 8] = [
    (9, at::M),
    (10, at::N),
    (12, at::Q),
    (14, at::SAI_N),
    (16, at::SAI_Q),
    (18, at::I2S_N),
    (19, at::I2S_Q),
    (20, at::I2S_R),
];

/// The setter calls that give a configuration the values which a setter can refuse.
fn calls(numbers: &Numbers) -> Vec<Call> {
    let call = |setter, a| Call { setter, a, b: 0 };
    let requested = REQUEST_SETTERS.iter().filter(|(_, flag)| numbers[*flag] != 0);
    let mut calls: Vec<Call> =
        requested.map(|&(setter, flag)| call(setter, numbers[flag + 1])).collect();
    calls.extend(FACTOR_SETTERS.map(|(setter, number)| call(setter, numbers[number])));
    if let Some(mode) = numbers[at::HSE_KIND].checked_sub(1) {
        calls.push(Call { setter: HSE, a: numbers[at::HSE], b: mode });
    }
    calls
}

/// Every refusal that a record deserves by its layout or its values, each value put through
/// its setter.
pub fn refusals(rust: &Assertions, bytes: &[u8]) -> Vec<u32> {
    let set = |call: &Call| rust.caught(|| call.of_the_rust(CFGR::defaults())).err();
    match record::read(bytes) {
        Ok(numbers) => calls(&numbers).iter().filter_map(set).collect(),
        Err(malformed) => vec![malformed],
    }
}

/// The configuration that a record holds, or 14 or the least of 1 to 6.
pub fn checked(rust: &Assertions, bytes: &[u8]) -> Result<Numbers, u32> {
    match refusals(rust, bytes).into_iter().min() {
        Some(least) => Err(least),
        None => record::read(bytes),
    }
}
