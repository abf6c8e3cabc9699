//! Whole inputs through programs `plan`, `explain` and `plan_tree`.

use std::ffi::OsStr;
use std::io::{self, ErrorKind, Write};
use std::os::unix::ffi::OsStrExt;
use std::path::Path;
use std::process::{Command, Output, Stdio};
use std::thread;

/// Runs a program on an input and compares all that it prints, and its exit status, with what is expected. Returns the
/// number of bytes compared.
pub fn compare(program: &Path, input: &[u8], expected: &[u8]) -> Result<usize, String> {
    compare_with(program, &[], input, expected)
}

/// The same with these arguments, none of which has a byte 0.
pub fn compare_with(program: &Path, arguments: &[&[u8]], input: &[u8], expected: &[u8]) -> Result<usize, String> {
    run(program, arguments, input)
        .map_err(|error| error.to_string())
        .and_then(|output| difference(expected, &output.stdout, output.status.code()))
        .map_err(|report| format!("{}: {report}", program.display()))?;
    Ok(expected.len())
}

/// Runs a program on an input and on its twin and compares what it prints. Returns the number of bytes compared.
pub fn compare_twins(program: &Path, [input, twin]: &[Vec<u8>; 2]) -> Result<usize, String> {
    let printed = run(program, &[], input).map_err(|error| format!("{}: {error}", program.display()))?.stdout;
    compare(program, twin, &printed).map_err(|report| format!("with LOSS 0 under 13 names: {report}"))
}

/// The input is written by a thread of its own, so that neither side waits for the other with a full pipe.
fn run(program: &Path, arguments: &[&[u8]], input: &[u8]) -> io::Result<Output> {
    let arguments = arguments.iter().map(|argument| OsStr::from_bytes(argument));
    let mut child = Command::new(program).args(arguments).stdin(Stdio::piped()).stdout(Stdio::piped()).spawn()?;
    let stdin = child.stdin.take();
    thread::scope(|scope| {
        let writer = scope.spawn(move || stdin.map_or(Ok(()), |mut pipe| feed(&mut pipe, input)));
        let output = child.wait_with_output();
        writer.join().expect("the writing thread does not panic")?;
        output
    })
}

/// Writes the input. A program that has seen enough of it may stop reading: that is no error.
fn feed(pipe: &mut impl Write, input: &[u8]) -> io::Result<()> {
    match pipe.write_all(input) {
        Err(error) if error.kind() != ErrorKind::BrokenPipe => Err(error),
        _ => Ok(()),
    }
}

/// How the output and the exit status differ from what is expected.
fn difference(expected: &[u8], printed: &[u8], status: Option<i32>) -> Result<(), String> {
    if status != Some(0) {
        return Err(format!("exit status {status:?}, expected 0"));
    }
    if expected == printed {
        return Ok(());
    }
    let same = expected.iter().zip(printed).take_while(|(expected, printed)| expected == printed).count();
    let line = expected[..same].iter().filter(|&&byte| byte == b'\n').count();
    Err(format!(
        "line {} of the output, counted from 1, is \"{}\", expected \"{}\"",
        line + 1,
        nth_line(printed, line).escape_ascii(),
        nth_line(expected, line).escape_ascii(),
    ))
}

fn nth_line(text: &[u8], line: usize) -> &[u8] {
    text.split_inclusive(|&byte| byte == b'\n').nth(line).unwrap_or_default()
}

#[cfg(test)]
mod tests {
    use super::*;

    #[test]
    fn differences_are_reported() {
        assert_eq!(difference(b"R 1 0\n", b"R 1 0\n", Some(0)), Ok(()));
        assert!(difference(b"R 1 0\n", b"R 1 0\n", Some(1)).is_err());
        assert!(difference(b"R 1 0\n", b"R 1 0\n", None).is_err());
        assert!(difference(b"R 1 0\n", b"R 1 0", Some(0)).is_err());
        assert!(difference(b"R 1 0\n", b"R 1 0\n\n", Some(0)).is_err());
        assert!(difference(b"", b"R 1 0\n", Some(0)).is_err());
        let report = difference(b"R 1 0\nR 2 1\n", b"R 1 0\nR 2 2\n", Some(0)).unwrap_err();
        assert!(report.starts_with("line 2 of the output"), "{report}");
    }
}
