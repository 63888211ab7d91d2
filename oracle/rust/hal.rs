//! Stands in for the root of the crate that rcc.rs comes from: the two names
//! that rcc.rs takes from it, and rcc.rs itself, unchanged.

// As the crate's own root has it.
#![allow(non_camel_case_types)]

#[path = "../sizes.rs"]
mod sizes;

#[path = "stand_ins/pac.rs"]
pub mod pac;
pub mod rcc;

pub trait Sealed {}
