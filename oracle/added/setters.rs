//! The setters by number, which the Rust does not have: their names, what argument each takes
//! within which limits, and the call of the Rust's own.

use fugit::HertzU32 as Hertz;
use hal::rcc::{
    HSEClock, HSEClockMode, LSEClock, LSEClockMode, CFGR, MCO1, MCO2, MCOPRE, PLL48CLK, PLLP,
    PLLSAIP,
};

use crate::model::limits::{self, Limits};

#[derive(Clone, Copy)]
pub enum Argument {
    Nothing,
    /// A frequency in hertz and, for HSE alone, a mode beside it.
    Frequency(Limits),
    /// A factor or divider, and the largest that the Rust's parameter can hold.
    Factor(Limits, u32),
    /// The code of an enum's value, and how many values there are.
    Code { values: u32 },
}

use Argument::{Code, Factor, Frequency, Nothing};

pub const HSE: u32 = 0;

const N: Argument = Factor(limits::N, u16::MAX as u32);
const Q: Argument = Factor(limits::Q, u8::MAX as u32);

/// A setter's place here is its number.
pub const SETTERS: [(&str, Argument); 26] = [
    ("hse", Frequency(limits::BYPASS)),
    ("hclk", Frequency(limits::HCLK)),
    ("sysclk", Frequency(limits::SYSCLK)),
    ("pclk1", Frequency(limits::PCLK1)),
    ("pclk2", Frequency(limits::PCLK2)),
    ("lse", Code { values: 2 }),
    ("lsi", Nothing),
    ("use_pll", Nothing),
    ("use_pll48clk", Code { values: 2 }),
    ("pllm", Factor(limits::M, u8::MAX as u32)),
    ("plln", N),
    ("pllp", Code { values: 4 }),
    ("pllq", Q),
    ("use_pllsai", Nothing),
    ("pllsain", N),
    ("pllsaip", Code { values: 4 }),
    ("pllsaiq", Q),
    ("use_plli2s", Nothing),
    ("plli2sn", N),
    ("plli2sq", Q),
    ("plli2sr", Factor(limits::R, u8::MAX as u32)),
    ("mco1", Code { values: 4 }),
    ("mco1pre", Code { values: 5 }),
    ("mco2", Code { values: 4 }),
    ("mco2pre", Code { values: 5 }),
    ("set_defaults", Nothing),
];

/// One setter call, by its number and two arguments.
#[derive(Clone, Copy, Debug)]
pub struct Call {
    pub setter: u32,
    pub a: u32,
    pub b: u32,
}

impl Call {
    /// Whether there is such a setter and its codes mean something.
    pub fn is_known(&self) -> bool {
        match SETTERS.get(self.setter as usize) {
            None => false,
            Some((_, Code { values })) => self.a < *values,
            Some(_) => self.setter != HSE || self.b < 2,
        }
    }

    /// Whether the Rust's parameter can hold the argument. For known setters.
    pub fn fits(&self) -> bool {
        match SETTERS[self.setter as usize].1 {
            Factor(_, largest) => self.a <= largest,
            _ => true,
        }
    }

    /// The Rust's own setter. For a known one whose argument fits.
    pub fn of_the_rust(&self, cfgr: CFGR) -> CFGR {
        let (a, byte, short) = (self.a, self.a as u8, self.a as u16);
        let hertz = Hertz::from_raw(a);
        match self.setter {
            HSE => cfgr.hse(HSEClock::new(hertz, HSEClockMode::of_code(self.b))),
            1 => cfgr.hclk(hertz),
            2 => cfgr.sysclk(hertz),
            3 => cfgr.pclk1(hertz),
            4 => cfgr.pclk2(hertz),
            5 => cfgr.lse(LSEClock::new(LSEClockMode::of_code(a))),
            6 => cfgr.lsi(),
            7 => cfgr.use_pll(),
            8 => cfgr.use_pll48clk(PLL48CLK::of_code(a)),
            9 => cfgr.pllm(byte),
            10 => cfgr.plln(short),
            11 => cfgr.pllp(PLLP::of_code(a)),
            12 => cfgr.pllq(byte),
            13 => cfgr.use_pllsai(),
            14 => cfgr.pllsain(short),
            15 => cfgr.pllsaip(PLLSAIP::of_code(a)),
            16 => cfgr.pllsaiq(byte),
            17 => cfgr.use_plli2s(),
            18 => cfgr.plli2sn(short),
            19 => cfgr.plli2sq(byte),
            20 => cfgr.plli2sr(byte),
            21 => cfgr.mco1(MCO1::of_code(a)),
            22 => cfgr.mco1pre(MCOPRE::of_code(a)),
            23 => cfgr.mco2(MCO2::of_code(a)),
            24 => cfgr.mco2pre(MCOPRE::of_code(a)),
            25 => cfgr.set_defaults(),
            unknown => unreachable!("setter {unknown}"),
        }
    }
}
