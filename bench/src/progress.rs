//! How far a long run is: a line on standard error that is written over again
//! and again. Where that is no terminal there is none, so that no log fills up.

use std::fmt::Display;
use std::io::{self, IsTerminal};

/// Shows the line in place of the one before.
pub fn show(line: impl Display) {
    if io::stderr().is_terminal() {
        eprint!("\r{line}");
    }
}

/// Goes on below the line.
pub fn end() {
    if io::stderr().is_terminal() {
        eprintln!();
    }
}
