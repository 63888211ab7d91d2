//! How long the library and the program take beside the Rust.

pub mod plans;
pub mod rust_program;
pub mod searches;
