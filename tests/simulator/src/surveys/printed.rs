//! The text of a surveyed tree's plan: writing and reading it.

use super::figures::{Answer, NodeLine};
use crate::printed;

/// The line that begins a plan.
pub const HEADER: &str = "KIND DEPTH RATE BURST SLOTS FRAMES LATENCY BUFFER DELAY ROUTE";

/// The text that is printed for a list.
pub fn text(answer: &Answer) -> String {
    match answer {
        Answer::Refused(number, place) => format!("R {number} {place}\n"),
        Answer::Plan(lines) => {
            let line = |node: &NodeLine| format!("{} {}\n", printed::line_text(&node.line), node.route);
            format!("{HEADER}\n{}", lines.iter().map(line).collect::<String>())
        }
    }
}

/// Reads the output of program `plan_tree`.
pub fn read(text: &str) -> Result<Answer, String> {
    let body = text.strip_suffix('\n').ok_or("no end of the last line")?;
    match body.split_once('\n') {
        Some((HEADER, lines)) => Ok(Answer::Plan(lines.split('\n').map(line).collect::<Result<_, String>>()?)),
        Some(_) => Err("no header line".into()),
        None => {
            let (number, place) = printed::refusal(body)?;
            Ok(Answer::Refused(number, place))
        }
    }
}

fn line(text: &str) -> Result<NodeLine, String> {
    let (columns, route) = text.rsplit_once(' ').ok_or_else(|| format!("not ten words: {text:?}"))?;
    Ok(NodeLine { line: printed::line(columns)?, route: printed::number(route)? })
}

#[cfg(test)]
mod tests {
    use super::super::{figures, fixed};
    use super::*;

    /// What is written for the fixed list is read back as it was.
    #[test]
    fn written_and_read() {
        for survey in fixed::all() {
            let answer = figures::answer(&survey, figures::Version::Right);
            assert_eq!(read(&text(&answer)), Ok(answer));
        }
        assert_eq!(read("R 7 12\n"), Ok(Answer::Refused(7, 12)));
    }

    /// Text that no plan prints is turned down.
    #[test]
    fn turned_down() {
        let plan = format!("{HEADER}\nS 0 1 7680 0 0 0 2 0 0\nE 1 1 3840 1 2 3840 2 5760 5760\n");
        assert!(read(&plan).is_ok());
        for (good, bad) in [
            ("5760\n", "5760"),
            (" 5760\n", "\n"),
            ("5760\n", "05760\n"),
            ("\nE ", "\nQ "),
            ("KIND", "KINDS"),
            (" 3840 2 ", " 3840  2 "),
            ("5760\n", "5760\n\n"),
        ] {
            assert!(read(&plan.replace(good, bad)).is_err(), "{bad:?} in place of {good:?}");
        }
        assert!(read("").is_err() && read("R 7\n").is_err() && read("R 7 0").is_err());
    }
}
