//! Document 01's limits, ends included, and the numbers of a configuration that have them.

use crate::model::configuration::at;

pub type Limits = (u32, u32);

pub const OSCILLATOR: Limits = (4_000_000, 26_000_000);
pub const BYPASS: Limits = (1_000_000, 50_000_000);
pub const HCLK: Limits = (0, 216_000_000);
pub const SYSCLK: Limits = (12_500_000, 216_000_000);
pub const PCLK1: Limits = (12_500_000, 54_000_000);
pub const PCLK2: Limits = (12_500_000, 108_000_000);
pub const M: Limits = (2, 63);
pub const N: Limits = (50, 432);
pub const Q: Limits = (2, 15);
pub const R: Limits = (2, 7);

/// VCO of PLLSAI and of PLLI2S.
pub const OTHER_VCO: Limits = (192_000_000, 432_000_000);

/// HSE by kind: an oscillator, a bypass.
pub const HSE: [(u32, Limits); 2] = [(1, OSCILLATOR), (2, BYPASS)];

/// The four requests: number of the flag, limits.
pub const REQUESTS: [(usize, Limits); 4] =
    [(at::HCLK, HCLK), (at::SYSCLK, SYSCLK), (at::PCLK1, PCLK1), (at::PCLK2, PCLK2)];

/// The factors and dividers: number, limits, the largest that the record and the Rust can hold.
pub const FACTORS: [(usize, Limits, u32); 8] = [
    (at::M, M, 0xFF),
    (at::N, N, 0xFFFF),
    (at::Q, Q, 0xFF),
    (at::SAI_N, N, 0xFFFF),
    (at::SAI_Q, Q, 0xFF),
    (at::I2S_N, N, 0xFFFF),
    (at::I2S_R, R, 0xFF),
    (at::I2S_Q, Q, 0xFF),
];

/// Whether a value is within its limits.
pub fn within((low, high): Limits, value: u32) -> bool {
    (low..=high).contains(&value)
}
