//! The library's answers held against the Rust's, a module for each comparison.

pub mod checks;
pub mod configures;
pub mod damaged;
pub mod derives;
pub mod lines;
pub mod outputs;
pub mod plans;
pub mod run;
pub mod searches;
pub mod self_test;
pub mod setters;
pub mod start_rows;
pub mod starts;
pub mod tally;
