//! Stands in for the crate `micromath`: `ceil` and `floor` of an f32 by their
//! meaning. The crate's own roundings are not at hand and so not compared.

// Where the standard library is present, f32 has `ceil` and `floor` of its own
// and a method call takes those first. So rcc.rs, built here with the standard
// library, imports this trait and leaves it unused; both say the same.
pub trait F32Ext {
    fn ceil(self) -> f32;
    fn floor(self) -> f32;
}

impl F32Ext for f32 {
    #[inline]
    fn ceil(self) -> f32 {
        f32::ceil(self)
    }

    #[inline]
    fn floor(self) -> f32 {
        f32::floor(self)
    }
}
