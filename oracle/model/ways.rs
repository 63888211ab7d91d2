//! Document 01's section "Whether the PLL is used": which windows there are, and whether a search
//! runs.

use crate::model::configuration::{at, Numbers};
use crate::model::walk::{output, Window};

/// The Q window of document 01, for the 48 MHz clock.
pub const USB: (u32, u32) = (47_880_000, 48_120_000);

/// HSI in hertz.
pub const HSI: u32 = 16_000_000;

#[derive(Clone, Copy, Debug, PartialEq, Eq)]
pub enum Way {
    /// No window: the PLL is not used.
    Neither,
    /// The present M, N, P derive the wanted value, and no Q is sought: nothing changes.
    Kept,
    Search {
        p: Window,
        q: Window,
    },
}

/// A SYSCLK request as the planner searches for it.
pub fn wanted(hertz: u32) -> Window {
    Some((hertz - 1, hertz + 1))
}

/// HSE if given, else HSI.
pub fn source(numbers: &Numbers) -> u32 {
    if numbers[at::HSE_KIND] > 0 {
        numbers[at::HSE]
    } else {
        HSI
    }
}

/// The source cut to a multiple of 16.
pub fn input(numbers: &Numbers) -> u32 {
    source(numbers) / 16 * 16
}

/// The P divider of a code.
pub fn p_divider(code: u32) -> u32 {
    2 * code + 2
}

/// For a configuration within its limits.
pub fn way(numbers: &Numbers) -> Way {
    let input = input(numbers);
    let sysclk = if numbers[at::SYSCLK] > 0 { numbers[at::SYSCLK + 1] } else { input };
    let p = if sysclk == input { None } else { wanted(sysclk) };
    let q = if numbers[at::CHOICE] == 1 { Some(USB) } else { None };
    let present = output(input, numbers[at::M], numbers[at::N], p_divider(numbers[at::P]));
    match (p, q) {
        (None, None) => Way::Neither,
        (_, None) if present == u64::from(sysclk) => Way::Kept,
        _ => Way::Search { p, q },
    }
}
