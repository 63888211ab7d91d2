//! What is compared and timed on: random cases, which follow from a seed, and the boundary lists.

pub mod boundary_records;
pub mod boundary_requests;
pub mod boundary_searches;
pub mod damage;
pub mod fleet;
pub mod random;
pub mod records;
pub mod requests;
pub mod sample;
pub mod searches;
pub mod starts;
