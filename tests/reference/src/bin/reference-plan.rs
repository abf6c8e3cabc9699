//! Program `plan` of document 01, in this implementation: rows of settings from standard input, plans to standard
//! output.

use std::io::{self, Read, Write};

fn main() -> io::Result<()> {
    let mut input = Vec::new();
    io::stdin().lock().read_to_end(&mut input)?;
    io::stdout().lock().write_all(&reference::program(&input))
}
