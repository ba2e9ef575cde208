//! Reads a shift's messages from standard input and prints what became of them.

use std::io::{self, Read, Write};

use mizzencord_compare::replica::printout::{printout, MOST_BYTES};

fn main() -> io::Result<()> {
    let mut input = Vec::new();
    io::stdin().lock().take(MOST_BYTES as u64).read_to_end(&mut input)?;
    io::stdout().lock().write_all(&printout(&input))
}
