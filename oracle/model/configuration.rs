//! A configuration as the numbers that the library hands back.

use crate::sizes::CONFIG;

pub type Numbers = [u32; CONFIG];

/// Where each of the numbers stands. A request is a flag and, after it, the hertz.
pub mod at {
    pub const HSE_KIND: usize = 0;
    pub const HSE: usize = 1;
    pub const LSE_KIND: usize = 2;
    pub const LSI: usize = 3;
    pub const HCLK: usize = 4;
    pub const SYSCLK: usize = 6;
    pub const PCLK1: usize = 8;
    pub const PCLK2: usize = 10;
    pub const USE_PLL: usize = 12;
    pub const CHOICE: usize = 13;
    pub const M: usize = 14;
    pub const N: usize = 15;
    pub const P: usize = 16;
    pub const Q: usize = 17;
    pub const USE_SAI: usize = 18;
    pub const SAI_N: usize = 19;
    pub const SAI_P: usize = 20;
    pub const SAI_Q: usize = 21;
    pub const USE_I2S: usize = 22;
    pub const I2S_N: usize = 23;
    pub const I2S_R: usize = 24;
    pub const I2S_Q: usize = 25;
    pub const MCO1: usize = 26;
    pub const MCO1PRE: usize = 27;
    pub const MCO2: usize = 28;
    pub const MCO2PRE: usize = 29;
}

/// What `constrain` starts from; the self-test holds it against the Rust.
pub const DEFAULTS: Numbers = [
    0, 0, 0, 0,
    0, 0, 0, 0, 0, 0, 0, 0,
    0, 0, 2, 50, 0, 2,
    0, 192, 0, 2,
    0, 192, 2, 2,
    0, 0, 0, 0,
];
