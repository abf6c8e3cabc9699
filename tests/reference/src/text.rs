//! Document 01, "The printed plan": the text of a plan, the programs' whole output, and condition 9.

use crate::heading::read_names;
use crate::{line_of, plan_row, Heading, Kind, Line, Outcome, Phrase, Plan, Refusal};

/// The most bytes of input that a program takes.
pub const INPUT_LIMIT: usize = 65_536;

const HEADER: &[u8] = b"KIND DEPTH RATE BURST SLOTS FRAMES LATENCY BUFFER DELAY\n";

/// What program `plan` prints for this standard input.
pub fn program(input: &[u8]) -> Vec<u8> {
    printed(input, |outcome, out| match outcome {
        Ok(plan) => write_plan(plan, out),
        Err(refusal) => write_refusal(*refusal, out),
    })
}

/// What program `explain` prints for this standard input: for each row a line that says why it is refused, or that it
/// is planned.
pub fn explanations(input: &[u8]) -> Vec<u8> {
    printed(input, |outcome, out| {
        out.extend_from_slice(line_of(outcome).as_bytes());
        out.push(b'\n');
    })
}

/// What a program prints that writes each outcome in this way.
fn printed(input: &[u8], write: impl Fn(&Outcome, &mut Vec<u8>)) -> Vec<u8> {
    let mut out = Vec::new();
    if input.len() > INPUT_LIMIT {
        write(&Err(Refusal::without_values(Phrase::Input, 0)), &mut out);
        return out;
    }
    let (names, rest) = cut_line(input);
    match read_names(names) {
        Ok(heading) => write_rows(heading, rest, &mut out, write),
        Err(refusal) => write(&Err(refusal), &mut out),
    }
    out
}

/// The answers to the rows that follow the name line. An empty rest is no row; an empty line with its LF is one.
fn write_rows(heading: Heading, mut rest: &[u8], out: &mut Vec<u8>, write: impl Fn(&Outcome, &mut Vec<u8>)) {
    while !rest.is_empty() {
        let (row, after) = cut_line(rest);
        write(&plan_row(heading, row), out);
        rest = after;
    }
}

/// The first line without its LF, and what follows that LF. The last line may lack the LF.
fn cut_line(text: &[u8]) -> (&[u8], &[u8]) {
    match text.iter().position(|&byte| byte == b'\n') {
        Some(end) => (&text[..end], &text[end + 1..]),
        None => (text, &[]),
    }
}

/// Appends the text of a plan, header line included, each line ended by LF.
pub fn write_plan(plan: &Plan, out: &mut Vec<u8>) {
    out.extend_from_slice(HEADER);
    for line in &plan.lines {
        write_columns(line, out);
        out.push(b'\n');
    }
}

/// The columns of a line, without its LF.
pub fn write_columns(line: &Line, out: &mut Vec<u8>) {
    out.push(match line.kind {
        Kind::EndNode => b'E',
        Kind::Up => b'U',
        Kind::Down => b'D',
        Kind::Sink => b'S',
    });
    let Line { depth, rate, burst, slots, frames, latency, buffer, delay, .. } = *line;
    for figure in [depth as u64, rate, burst, slots, frames, latency, buffer, delay] {
        write_figure(figure, out);
    }
}

/// The line of a refusal.
pub fn write_refusal(refusal: Refusal, out: &mut Vec<u8>) {
    out.push(b'R');
    write_figure(u64::from(refusal.number), out);
    write_figure(u64::from(refusal.place), out);
    out.push(b'\n');
}

/// A space and a number in decimal. The digits are found from the last to the first; a u64 has at most 20.
pub fn write_figure(mut figure: u64, out: &mut Vec<u8>) {
    let mut digits = [0; 20];
    let mut start = digits.len();
    loop {
        start -= 1;
        digits[start] = b'0' + (figure % 10) as u8;
        figure /= 10;
        if figure == 0 {
            break;
        }
    }
    out.push(b' ');
    out.extend_from_slice(&digits[start..]);
}

#[cfg(test)]
mod tests {
    use super::*;
    use crate::{LOSS_NAMES, NAMES};

    const P1: &str = "8 4 1 2 1 0 0 1 1 19 7 0";
    const P1_PLAN: &str = "KIND DEPTH RATE BURST SLOTS FRAMES LATENCY BUFFER DELAY\n\
                           E 0 1 245760 1 9 245032 2 272339\n\
                           U 1 1 490792 1 9 245032 3 299565\n\
                           S 0 3 1962440 0 0 0 8 571904\n";
    const P2: &str = "8 4 1 2 1 0 1 1 1 19 7 0";
    const P2_PLAN: &str = "KIND DEPTH RATE BURST SLOTS FRAMES LATENCY BUFFER DELAY\n\
                           E 0 1 245760 1 9 245032 2 272339\n\
                           U 1 1 490792 1 9 245032 3 299565\n\
                           D 0 2 1226616 1 9 245032 7 381323\n\
                           S 1 3 2207472 0 0 0 9 953227\n";

    fn printed(input: &str) -> String {
        String::from_utf8(program(input.as_bytes())).unwrap()
    }

    /// What is printed after the line of 12 names and its LF.
    fn after_names(rest: &str) -> String {
        printed(&format!("{NAMES}\n{rest}"))
    }

    /// What is printed after the line of 13 names and its LF.
    fn after_loss_names(rest: &str) -> String {
        printed(&format!("{LOSS_NAMES}\n{rest}"))
    }

    #[test]
    fn p1_and_p2() {
        assert_eq!(after_names(P1), P1_PLAN);
        assert_eq!(after_names(P2), P2_PLAN);
    }

    /// "A name line of 12 names still stands for LOSS 0": under 13 names the same rows with LOSS 0 have the same plans.
    #[test]
    fn p1_and_p2_with_loss_0() {
        assert_eq!(after_loss_names(&format!("{P1} 0\n{P2} 0\n")), [P1_PLAN, P2_PLAN].concat());
    }

    /// P1 acknowledged. X = 12 + 52 + 34 + 40 = 138. With LOSS 1 an exchange lasts 138 + 158 = 296, a slot of 960 holds
    /// 3 of them and T = 245,760 − 296 = 245,464. An end node's link gets 245,760 and leaves 491,224, delay 81,920 + T;
    /// a router's gets 491,224 and leaves 736,688, delay 163,742 + T. The sink gets 491,224 + 2 × 736,688.
    #[test]
    fn p1_with_loss_1() {
        let plan = "KIND DEPTH RATE BURST SLOTS FRAMES LATENCY BUFFER DELAY\n\
                    E 0 1 245760 1 3 245464 2 327384\n\
                    U 1 1 491224 1 3 245464 3 409206\n\
                    S 0 3 1964600 0 0 0 8 736590\n";
        assert_eq!(after_loss_names("8 4 1 2 1 0 0 1 1 19 7 1 1\n"), plan);
    }

    /// With LOSS 7 an exchange lasts 138 + 7 × 158 = 1,244, so that a link has 2 slots for one of them and
    /// T = 245,760 + 1,244 = 247,004. Each link's burst and T add up to its delay and to what leaves it: 492,764, and
    /// 739,768 for a router. The sink gets 492,764 + 2 × 739,768.
    #[test]
    fn p1_with_loss_7() {
        let plan = "KIND DEPTH RATE BURST SLOTS FRAMES LATENCY BUFFER DELAY\n\
                    E 0 1 245760 2 1 247004 3 492764\n\
                    U 1 1 492764 2 1 247004 4 739768\n\
                    S 0 3 1972300 0 0 0 9 1232532\n";
        assert_eq!(after_loss_names("8 4 1 2 1 0 0 1 1 19 7 1 7\n"), plan);
    }

    #[test]
    fn refusals_of_loss() {
        let acknowledged = "8 4 1 2 1 0 0 1 1 19 7 1";
        assert_eq!(
            after_names(&format!("{acknowledged} 1\n{acknowledged} x\n{acknowledged} 1 \n")),
            "R 2 13\n".repeat(3)
        );
        let rows = ["", " x", " 1 ", " 1 1", " 8"].map(|rest| format!("{acknowledged}{rest}"));
        assert_eq!(after_loss_names(&rows.join("\n")), "R 2 13\nR 2 13\nR 2 14\nR 2 14\nR 3 13\n");
        assert_eq!(after_loss_names(&format!("{P1} 1\n8 4 1 2 1 0 0 1 1 120 8 0 1")), "R 4 13\nR 4 11\n");
    }

    #[test]
    fn every_row_has_its_header_line() {
        assert_eq!(after_names(&format!("{P1}\n{P2}\n{P1}\n")), [P1_PLAN, P2_PLAN, P1_PLAN].concat());
    }

    #[test]
    fn name_line() {
        assert_eq!(printed(""), "R 1 0\n");
        assert_eq!(printed("\n"), "R 1 0\n");
        assert_eq!(printed(NAMES), "");
        assert_eq!(printed(&format!("{NAMES}\n")), "");
        assert_eq!((printed(LOSS_NAMES), printed(&format!("{LOSS_NAMES}\n"))), (String::new(), String::new()));
        assert_eq!(printed(&format!("{LOSS_NAMES} \n{P1} 0\n")), "R 1 0\n");
        assert_eq!(printed(&format!("{NAMES} \n{P1}\n")), "R 1 0\n");
        assert_eq!(printed(&format!("{NAMES}\r\n{P1}\n")), "R 1 0\n");
        assert_eq!(printed(&format!("{}\n{P1}\n", NAMES.to_lowercase())), "R 1 0\n");
        assert_eq!(printed(&format!("\n{NAMES}\n{P1}\n")), "R 1 0\n");
        assert_eq!(printed(P1), "R 1 0\n");
    }

    #[test]
    fn ends_of_lines() {
        assert_eq!(after_names(&format!("{P1}\n")), P1_PLAN);
        assert_eq!(after_names("\n"), "R 2 1\n");
        assert_eq!(after_names("\n\n"), "R 2 1\nR 2 1\n");
        assert_eq!(after_names(&format!("\n{P1}\n\n{P1}")), ["R 2 1\n", P1_PLAN, "R 2 1\n", P1_PLAN].concat());
        assert_eq!(after_names(&format!("{P1}\r\n")), "R 2 12\n");
        assert_eq!(after_names(&format!("{P1}\0")), "R 2 12\n");
        assert_eq!(after_names(&format!("{P1} \n")), "R 2 13\n");
    }

    #[test]
    fn refused_rows_are_followed_by_the_next() {
        let rows = [
            "08 4 1 2 1 0 0 1 1 19 7 0",
            "8 4 1 2 1 0 0 0 1 19 7 0",
            "4 8 1 2 1 0 0 1 1 19 7 0",
            "8 4 1 4 4 0 0 1 1 19 7 0",
            "5 4 1 2 1 0 0 1 1 19 7 0",
            "0 0 0 0 5 0 0 1 1 19 7 0",
            P1,
        ];
        assert_eq!(after_names(&rows.join("\n")), format!("R 2 1\nR 3 8\nR 4 2\nR 5 0\nR 6 0\nR 7 0\n{P1_PLAN}"));
    }

    #[test]
    fn length_of_the_input() {
        assert_eq!(program(&[b' '; INPUT_LIMIT + 1]), b"R 9 0\n");
        assert_eq!(program(&[b' '; INPUT_LIMIT]), b"R 1 0\n");
        let mut input = format!("{NAMES}\n{P1}\n").into_bytes();
        input.resize(INPUT_LIMIT, b' ');
        assert_eq!(program(&input), format!("{P1_PLAN}R 2 1\n").as_bytes());
        input.push(b' ');
        assert_eq!(program(&input), b"R 9 0\n");
    }

    fn explained(input: &str) -> String {
        String::from_utf8(explanations(input.as_bytes())).unwrap()
    }

    #[test]
    fn explanations_of_rows() {
        let rows = ["8 4 1 2 1 0 0 0 1 19 7 0", P1, "", "8 4 1 4 4 0 0 1 1 19 7 0"];
        let expected = "The value of BURST is outside its range: it is 0.\n\
                        The row is planned.\n\
                        The value of BO is unreadable or missing.\n\
                        A router would have more than 7 reservations: NE is 4 and NR is 4.\n";
        assert_eq!(explained(&format!("{NAMES}\n{}\n", rows.join("\n"))), expected);
        assert_eq!(explained(&format!("{NAMES}\n{}", rows.join("\n"))), expected);
    }

    #[test]
    fn explanations_of_loss() {
        let rows = [" 3", " 1 7", " 1 8", " 1", " 1 1 "].map(|rest| format!("8 4 1 2 1 0 0 1 1 19 7{rest}"));
        let rows = format!("8 4 1 2 1 0 0 1 1 19 7 0 3\n{}\n", rows.join("\n"));
        let expected = "Values are at odds at LOSS, which is 0 where ACK is 0: LOSS is 3 and ACK is 0.\n\
                        The value of LOSS is unreadable or missing.\n\
                        The row is planned.\n\
                        The value of LOSS is outside its range: it is 8.\n\
                        The value of LOSS is unreadable or missing.\n\
                        There is text after the last value, where column 14 would be.\n";
        assert_eq!(explained(&format!("{LOSS_NAMES}\n{rows}")), expected);
    }

    #[test]
    fn one_line_is_all_that_is_explained() {
        let names = "The line of names differs or is missing.\n";
        assert_eq!(explained(""), names);
        assert_eq!(explained("\n"), names);
        assert_eq!(explained(&format!("{P1}\n{P1}\n")), names);
        assert_eq!(explained(&" ".repeat(INPUT_LIMIT)), names);
        assert_eq!(explained(&" ".repeat(INPUT_LIMIT + 1)), "The input is over 65,536 bytes.\n");
        assert_eq!(explained(NAMES), "");
        assert_eq!(explained(&format!("{NAMES}\n")), "");
    }

    /// Each explanation has the number and place of the `R` line in its stead.
    #[test]
    fn explanations_answer_the_lines_of_plan() {
        let mut rng = crate::rows::Rng::new(9);
        for _ in 0..500 {
            let input = crate::rows::text(&mut rng);
            let explained = explanations(&input);
            let lines = explained.split_inclusive(|&byte| byte == b'\n');
            let read = lines.map(|line| crate::read_reason(&line[..line.len() - 1]).unwrap_or((0, 0)));
            let plans = program(&input);
            let heads = plans.split_inclusive(|&byte| byte == b'\n').filter_map(|line| match line {
                HEADER => Some("R 0 0".to_string()),
                [b'R', ..] => Some(String::from_utf8_lossy(line).trim_end().to_string()),
                _ => None,
            });
            let read: Vec<_> = read.map(|(number, place)| format!("R {number} {place}")).collect();
            assert_eq!(read, heads.collect::<Vec<_>>());
        }
    }

    #[test]
    fn figures() {
        let mut out = Vec::new();
        for figure in [0, 9, 10, 4095, u64::MAX] {
            write_figure(figure, &mut out);
        }
        assert_eq!(out, b" 0 9 10 4095 18446744073709551615");
    }
}
