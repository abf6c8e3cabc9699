//! Program `plan_tree` of request E3 in this implementation: BO SO HEAD DATA ACK SINK and perhaps LOSS as arguments, a
//! node list from standard input, the plan or the refusal to standard output.

use std::env;
use std::ffi::OsString;
use std::io::{self, Read, Write};
use std::os::unix::ffi::OsStrExt;

fn main() -> io::Result<()> {
    let arguments: Vec<OsString> = env::args_os().skip(1).collect();
    let arguments: Vec<&[u8]> = arguments.iter().map(|argument| argument.as_bytes()).collect();
    let mut input = Vec::new();
    io::stdin().lock().read_to_end(&mut input)?;
    io::stdout().lock().write_all(&reference::tree_program(&arguments, &input))
}
