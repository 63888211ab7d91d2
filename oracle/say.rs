//! Lines to standard output.

use std::fmt::Arguments;
use std::io::{self, Write};

/// A line to standard output; where nobody takes it any more, the run ends.
macro_rules! say {
    ($($words:tt)*) => { crate::say::said(format_args!($($words)*)) };
}

pub fn said(words: Arguments) {
    if writeln!(io::stdout(), "{words}").is_err() {
        std::process::exit(1);
    }
}
