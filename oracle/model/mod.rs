//! Document 01 in plain code that knows nothing of the library or of the Rust.

pub mod clocks;
pub mod configuration;
pub mod limits;
pub mod rows;
pub mod table;
pub mod walk;
pub mod ways;
