//! The enums of CFGR's fields; rcc.rs says how its own become these.

pub enum MCO1_A { Hsi, Lse, Hse, Pll }
pub enum MCO2_A { Sysclk, Plli2s, Hse, Pll }
pub enum MCO2PRE_A { Div1, Div2, Div3, Div4, Div5 }
