//! Stands in for the module `enable` of rcc.rs, whose file is not at hand. A child reaches its
//! parent's private parts; all here are methods, so the host can call them by their type.

use super::*;
use crate::sizes::RUST_CONFIG;

/// The enums of rcc.rs by their numbers, in its order from 0.
macro_rules! by_code {
    ($($name:ident [$($value:ident),+],)+) => {
        $(impl $name {
            pub fn of_code(code: u32) -> $name {
                [$($name::$value),+][code as usize]
            }
        })+
    };
}

by_code! {
    HSEClockMode [Oscillator, Bypass],
    LSEClockMode [Oscillator, Bypass],
    PLL48CLK [Pllq, Pllsai],
    PLLP [Div2, Div4, Div6, Div8],
    PLLSAIP [Div2, Div4, Div6, Div8],
    MCO1 [Hsi, Lse, Hse, Pll],
    MCO2 [Sysclk, Plli2s, Hse, Pll],
    MCOPRE [Div1_no_div, Div2, Div3, Div4, Div5],
}

type Window = Option<(u32, u32)>;

/// M, N, P, Q.
type Found = Option<(u32, u32, Option<u32>, Option<u32>)>;

impl CFGR {
    /// The configuration that `constrain` starts from.
    pub fn defaults() -> CFGR {
        RCC.constrain().cfgr
    }

    /// The configuration as numbers: HSE kind (0 absent, 1 oscillator, 2 bypass), HSE;
    /// LSE kind, LSI; a flag and hertz for HCLK, SYSCLK, PCLK1, PCLK2; use_pll, 48 MHz
    /// choice (0 absent, 1 PLLQ, 2 PLLSAI), M, N, P code, Q; use_pllsai, N, P code, Q;
    /// use_plli2s, N, R, Q; MCO1, MCO1PRE, MCO2, MCO2PRE.
    pub fn numbers(&self) -> [u32; RUST_CONFIG] {
        let flag = |request: Option<u32>| u32::from(request.is_some());
        let hertz = |request: Option<u32>| request.unwrap_or(0);
        [
            self.hse.map_or(0, |hse| 1 + hse.mode as u32),
            self.hse.map_or(0, |hse| hse.freq.raw()),
            self.lse.map_or(0, |lse| 1 + lse.mode as u32),
            u32::from(self.lsi.is_some()),
            flag(self.hclk), hertz(self.hclk),
            flag(self.sysclk), hertz(self.sysclk),
            flag(self.pclk1), hertz(self.pclk1),
            flag(self.pclk2), hertz(self.pclk2),
            u32::from(self.use_pll),
            self.pll48clk.map_or(0, |choice| 1 + choice as u32),
            self.pllm.into(), self.plln.into(), self.pllp as u32, self.pllq.into(),
            u32::from(self.use_pllsai),
            self.pllsain.into(), self.pllsaip as u32, self.pllsaiq.into(),
            u32::from(self.use_plli2s),
            self.plli2sn.into(), self.plli2sr.into(), self.plli2sq.into(),
            self.mco1 as u32, self.mco1pre as u32, self.mco2 as u32, self.mco2pre as u32,
        ]
    }

    /// The configuration of such numbers, with no setter's assertion asked. CFGR is no
    /// `Clone`, and a refused setter call has consumed it: this is how it comes back.
    pub fn of_numbers(n: &[u32; RUST_CONFIG]) -> CFGR {
        let request = |at: usize| (n[at] != 0).then_some(n[at + 1]);
        CFGR {
            hse: n[0].checked_sub(1).map(|mode| HSEClock {
                freq: Hertz::from_raw(n[1]),
                mode: HSEClockMode::of_code(mode),
            }),
            lse: n[2].checked_sub(1).map(|mode| LSEClock::new(LSEClockMode::of_code(mode))),
            lsi: (n[3] != 0).then_some(32.kHz()),
            hclk: request(4), sysclk: request(6), pclk1: request(8), pclk2: request(10),
            use_pll: n[12] != 0,
            pll48clk: n[13].checked_sub(1).map(PLL48CLK::of_code),
            pllm: n[14] as u8, plln: n[15] as u16, pllp: PLLP::of_code(n[16]), pllq: n[17] as u8,
            use_pllsai: n[18] != 0,
            pllsain: n[19] as u16, pllsaip: PLLSAIP::of_code(n[20]), pllsaiq: n[21] as u8,
            use_plli2s: n[22] != 0,
            plli2sn: n[23] as u16, plli2sr: n[24] as u8, plli2sq: n[25] as u8,
            mco1: MCO1::of_code(n[26]), mco1pre: MCOPRE::of_code(n[27]),
            mco2: MCO2::of_code(n[28]), mco2pre: MCOPRE::of_code(n[29]),
        }
    }

    pub fn search(input: u32, p: Window, q: Window) -> Found {
        CFGR::calculate_mnpq(input, FreqRequest { p, q })
    }

    /// Chooses whether the PLL is used, and with which settings.
    pub fn configure_pll(&mut self) {
        self.pll_configure()
    }

    /// The clocks, and HPRE, PPRE1, PPRE2, wait states, over-drive and voltage scale.
    pub fn derive(&self) -> (Clocks, [u32; 6]) {
        let (clocks, config) = self.calculate_clocks();
        let scale = match config.vos_scale {
            VOSscale::PwrScale1 => 1,
            VOSscale::PwrScale2 => 2,
            VOSscale::PwrScale3 => 3,
        };
        let codes = [config.hpre, config.ppre1, config.ppre2, config.flash_waitstates];
        let [hpre, ppre1, ppre2, waits] = codes.map(u32::from);
        (clocks, [hpre, ppre1, ppre2, waits, u32::from(config.overdrive), scale])
    }
}
