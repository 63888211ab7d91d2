//! Calls of the Rust that may panic, and the lines of rcc.rs on which it may.

use std::cell::Cell;
use std::panic::{self, AssertUnwindSafe};

thread_local! {
    /// The line of the last panic, while one is being caught.
    static CAUGHT: Cell<Option<Option<u32>>> = const { Cell::new(None) };
}

/// Keeps the panics that `caught` looks for silent; any other is told as usual.
pub fn install() {
    let usual = panic::take_hook();
    panic::set_hook(Box::new(move |info| match CAUGHT.get() {
        Some(_) => CAUGHT.set(Some(info.location().map(|at| at.line()))),
        None => usual(info),
    }));
}

/// What the call answers, or the line on which it panicked.
pub fn caught<T>(call: impl FnOnce() -> T) -> Result<T, u32> {
    CAUGHT.set(Some(None));
    let result = panic::catch_unwind(AssertUnwindSafe(call));
    let line = CAUGHT.take().flatten();
    result.map_err(|_| line.unwrap_or(0))
}

/// An `assert!` or `panic!` of rcc.rs: its line by number and as it reads, and where it stands.
pub struct Assertion {
    pub line: u32,
    pub text: &'static str,
    pub within: &'static str,
    pub function: &'static str,
}

/// Read off the text of rcc.rs, in its order.
pub fn assertions() -> Vec<Assertion> {
    let mut all = Vec::new();
    let (mut within, mut function) = ("", "");
    for (index, text) in include_str!("rcc.rs").lines().enumerate() {
        if let Some(name) = text.strip_prefix("impl ") {
            within = name.trim_end_matches(" {");
        } else if let Some((_, rest)) = text.split_once("fn ") {
            function = rest.split(['(', '<']).next().unwrap_or("");
        } else if ["assert!(", "panic!("].iter().any(|&word| text.trim_start().starts_with(word)) {
            all.push(Assertion { line: index as u32 + 1, text, within, function });
        }
    }
    all
}
