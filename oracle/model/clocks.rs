//! Clocks as the numbers that the library hands back, and a plan.

use crate::model::configuration::Numbers;
use crate::sizes::CLOCKS;

pub type Clocks = [u32; CLOCKS];

/// Where some of the numbers stand: the six frequencies first, HSE, LSE and LSI last.
pub mod at {
    pub const SYSCLK: usize = 0;
    pub const HCLK: usize = 1;
    pub const PCLK1: usize = 2;
    pub const PCLK2: usize = 3;
    pub const HPRE: usize = 6;
    pub const PPRE1: usize = 7;
    pub const PPRE2: usize = 8;
    pub const WAITS: usize = 9;
    pub const SCALE: usize = 10;
    pub const OVERDRIVE: usize = 11;
    pub const VALID: usize = 12;
}

/// A plan: the configuration as planned, and its clocks.
pub type Plan = (Numbers, Clocks);
