//! Stands in for the crate `fugit`: its frequency in hertz and the `.Hz()`,
//! `.kHz()` and `.MHz()` of a u32, as far as rcc.rs uses them.

// The names are fugit's.
#![allow(non_snake_case)]

#[derive(Clone, Copy, Debug, PartialEq, Eq, PartialOrd, Ord)]
pub struct HertzU32(u32);

impl HertzU32 {
    #[inline]
    pub const fn from_raw(raw: u32) -> Self {
        HertzU32(raw)
    }

    #[inline]
    pub const fn raw(&self) -> u32 {
        self.0
    }

    #[inline]
    pub const fn MHz(megahertz: u32) -> Self {
        HertzU32(megahertz * 1_000_000)
    }
}

pub trait RateExtU32 {
    fn Hz(self) -> HertzU32;
    fn kHz(self) -> HertzU32;
    fn MHz(self) -> HertzU32;
}

impl RateExtU32 for u32 {
    #[inline]
    fn Hz(self) -> HertzU32 {
        HertzU32(self)
    }

    #[inline]
    fn kHz(self) -> HertzU32 {
        HertzU32(self * 1_000)
    }

    #[inline]
    fn MHz(self) -> HertzU32 {
        HertzU32::MHz(self)
    }
}
