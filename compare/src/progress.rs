//! A progress line on standard error: rewritten on a terminal, else one line
//! after the other.

use std::io::{stderr, IsTerminal, Write};

pub fn progress(text: &str) {
    if stderr().is_terminal() {
        eprint!("\r{text:<70}");
        let _ = stderr().flush();
    } else if !text.is_empty() {
        eprintln!("{text}");
    }
}

/// Ends the line.
pub fn progress_ends() {
    progress("");
    if stderr().is_terminal() {
        eprint!("\r");
    }
}
