//! The text of printed plans (document 01, "The printed plan"): writing and reading it.

use crate::figures::{Answer, Line};

/// The line that begins each plan.
pub const HEADER: &str = "KIND DEPTH RATE BURST SLOTS FRAMES LATENCY BUFFER DELAY";

/// One line as it is printed.
pub fn line_text(line: &Line) -> String {
    let Line { kind, depth, rate, burst, slots, frames, latency, buffer, delay } = line;
    format!("{kind} {depth} {rate} {burst} {slots} {frames} {latency} {buffer} {delay}")
}

/// The text that is printed for a row.
pub fn text(answer: &Answer) -> String {
    match answer {
        Answer::Refused(number, place) => format!("R {number} {place}\n"),
        Answer::Plan(lines) => {
            let body: Vec<String> = lines.iter().map(line_text).collect();
            format!("{HEADER}\n{}\n", body.join("\n"))
        }
    }
}

/// Reads a number in the form in which it is printed: digits without a leading zero.
pub fn number<N: std::str::FromStr>(word: &str) -> Result<N, String> {
    let plain = word.bytes().all(|byte| byte.is_ascii_digit()) && (word == "0" || !word.starts_with('0'));
    let value = if plain { word.parse().ok() } else { None };
    value.ok_or_else(|| format!("not a number: {word:?}"))
}

/// Reads one line of kind E, U, D or S.
pub fn line(text: &str) -> Result<Line, String> {
    let words: Vec<&str> = text.split(' ').collect();
    let [kind, depth, rate, burst, slots, frames, latency, buffer, delay] = words[..] else {
        return Err(format!("not nine words: {text:?}"));
    };
    let kind = match kind {
        "E" => 'E',
        "U" => 'U',
        "D" => 'D',
        "S" => 'S',
        _ => return Err(format!("no such kind of line: {text:?}")),
    };
    Ok(Line {
        kind,
        depth: number(depth)?,
        rate: number(rate)?,
        burst: number(burst)?,
        slots: number(slots)?,
        frames: number(frames)?,
        latency: number(latency)?,
        buffer: number(buffer)?,
        delay: number(delay)?,
    })
}

/// Reads the two numbers of a refusal.
pub fn refusal(text: &str) -> Result<(u64, u64), String> {
    let words: Vec<&str> = text.split(' ').collect();
    let ["R", no, place] = words[..] else {
        return Err(format!("neither a header nor a refusal: {text:?}"));
    };
    Ok((number(no)?, number(place)?))
}

/// Reads the output of program `plan`: one answer for each row. A plan begins with its header line
/// and ends with its line S.
pub fn read(text: &str) -> Result<Vec<Answer>, String> {
    let mut answers = Vec::new();
    let mut rest = text.split_terminator('\n');
    while let Some(first) = rest.next() {
        if first != HEADER {
            let (number, place) = refusal(first)?;
            answers.push(Answer::Refused(number, place));
            continue;
        }
        let mut lines = Vec::new();
        loop {
            let next = rest.next().ok_or("a plan without its line S")?;
            lines.push(line(next)?);
            if lines.last().is_some_and(|line| line.kind == 'S') {
                break;
            }
        }
        answers.push(Answer::Plan(lines));
    }
    Ok(answers)
}

#[cfg(test)]
mod tests {
    use super::*;
    use crate::figures::{answer, Version};
    use crate::rows;

    /// What is written for the fixed list is read back as it was.
    #[test]
    fn written_and_read() {
        let answers: Vec<Answer> = rows::all().iter().map(|row| answer(row, Version::Right)).collect();
        let written: String = answers.iter().map(text).collect();
        assert_eq!(read(&written), Ok(answers));
    }

    /// Text that no plan prints is turned down.
    #[test]
    fn turned_down() {
        let plan = format!("{HEADER}\nE 0 1 245760 1 9 245032 2 272339\nS 0 3 1962440 0 0 0 8 571904\n");
        assert!(read(&plan).is_ok());
        assert_eq!(read(""), Ok(Vec::new()));
        assert_eq!(read("R 7 0\n"), Ok(vec![Answer::Refused(7, 0)]));
        for (good, bad) in [
            ("\nS ", "\nQ "),
            ("S 0", "S 00"),
            (" 571904", ""),
            (" 571904", " 571904 "),
            (" 8 ", " -8 "),
            (" 8 ", "  8 "),
            ("KIND", "KINDS"),
            ("S 0 3 1962440 0 0 0 8 571904\n", ""),
        ] {
            assert!(read(&plan.replace(good, bad)).is_err(), "{bad:?} in place of {good:?}");
        }
    }
}
