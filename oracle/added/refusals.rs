//! Refusal numbers: document 01 has one for each assertion of the Rust that can fail.

use crate::rust::panics::{self, Assertion};

/// A record, a setter, a code or a length that there is not: the Rust has no assertion for it.
pub const MALFORMED: u32 = 14;

/// The lines of rcc.rs with an assertion or panic that a refusal stands for, and its number.
pub struct Assertions(Vec<(u32, u32)>);

impl Assertions {
    pub fn of_the_rust() -> Self {
        let numbered = |found: &Assertion| refusal_of(found).map(|number| (found.line, number));
        Assertions(panics::assertions().iter().filter_map(numbered).collect())
    }

    /// What a call of the Rust answers, or the refusal number of the assertion that failed.
    pub fn caught<T>(&self, call: impl FnOnce() -> T) -> Result<T, u32> {
        panics::caught(call).map_err(|line| self.number(line))
    }

    /// A panic elsewhere gets 10,000 and its line: no refusal's number, so it shows
    /// as a difference, and the line with it.
    fn number(&self, line: u32) -> u32 {
        let known = self.0.iter().find(|(at, _)| *at == line);
        known.map_or(10_000 + line, |(_, number)| *number)
    }

    /// How many lines each refusal number from 0 to 11 has.
    pub fn counts(&self) -> [usize; 12] {
        let mut counts = [0; 12];
        self.0.iter().for_each(|(_, number)| counts[*number as usize] += 1);
        counts
    }
}

/// By the function that the assertion stands in and, where that has several numbers, by what it
/// looks at. Those on PLLI2S's R and Q outputs have none: document 01 says that they can't fail.
fn refusal_of(assertion: &Assertion) -> Option<u32> {
    Some(match (assertion.within, assertion.function) {
        ("HSEClock", "new") => 1,
        ("CFGR", "hclk") => 2,
        ("CFGR", "sysclk") => 3,
        ("CFGR", "pclk1") => 4,
        ("CFGR", "pclk2") => 5,
        ("CFGR", "pllm" | "plln" | "pllq") => 6,
        ("CFGR", "pllsain" | "pllsaiq") => 6,
        ("CFGR", "plli2sn" | "plli2sq" | "plli2sr") => 6,
        ("CFGR", "pll_configure") => 7,
        ("CFGR", "calculate_clocks") => 8,
        ("CFGR", "freeze") if assertion.text.contains("pllsain_freq") => 9,
        ("CFGR", "freeze") if assertion.text.contains("pllsaip_freq") => 10,
        ("CFGR", "freeze") if assertion.text.contains("plli2sn_freq") => 11,
        _ => return None,
    })
}
