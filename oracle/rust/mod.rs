//! The Rust: rcc.rs as it is and what stands in for all that it leans on, which are the crate of
//! hal.rs, and for the host its panics.

pub mod panics;
