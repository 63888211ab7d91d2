//! Stands in for the crate `cortex_m`: `asm::delay`, which passes time and
//! changes nothing that is compared.

pub mod asm {
    #[inline]
    pub fn delay(_cycles: u32) {}
}
