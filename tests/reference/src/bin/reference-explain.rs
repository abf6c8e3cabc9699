//! Program `explain` of request E1 in this implementation: rows of settings from standard input, a line for each to
//! standard output that says why the row is refused or that it is planned.

use std::io::{self, Read, Write};

fn main() -> io::Result<()> {
    let mut input = Vec::new();
    io::stdin().lock().read_to_end(&mut input)?;
    io::stdout().lock().write_all(&reference::explanations(&input))
}
