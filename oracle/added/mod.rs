//! What document 01, or a change asked for after it, adds to the Rust, and the Rust's answers with
//! it: rcc.rs and the log of its stores and waits stay as they are, and what is added is here.

pub mod answers;
pub mod check;
pub mod lines;
pub mod record;
pub mod refusals;
pub mod setters;
pub mod starts;
