//! How many numbers, places and bytes each thing has, named once. Where the Rust has the thing too,
//! its own count stands first: what is added to the Rust makes ours the longer.

/// Numbers of a configuration.
pub const RUST_CONFIG: usize = 30;
pub const CONFIG: usize = RUST_CONFIG;

/// Places of a register file.
pub const RUST_PLACES: usize = 35;
pub const PLACES: usize = RUST_PLACES;

/// Numbers of the clocks.
pub const CLOCKS: usize = 16;

/// Numbers of a search's answer: passes, M, N, P, Q.
pub const SEARCH: usize = 5;

/// Bytes of a request record, and how many records the program reads.
pub const RECORD: usize = 64;
pub const MOST_RECORDS: usize = 1_000_000;

/// Numbers of a line, and bytes of the longest: `ok`, a space and ten digits for each, a newline.
pub const QUANTITIES: usize = 14;
pub const LINE: usize = 2 + QUANTITIES * (1 + 10) + 1;

/// The most waits of a start, and the most polls of a wait.
pub const WAITS: usize = 8;
pub const MOST_POLLS: u32 = 65_535;

/// Refusals, 0 among them.
pub const REFUSALS: usize = 15;
