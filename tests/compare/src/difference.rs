//! What an entry for C must answer and leave, by the reference implementation, and how it differs from what was found.
//! Document 01, "Rows of settings": "A refused row yields number and place, and every byte of the lent buffer is the
//! one that was there. A planned row puts its text, header line included, at the front of the buffer and yields the
//! text's length; the bytes behind it keep their values." The line of a row or a refusal is put in the same way.

use crate::entries::{Answer, Refusal};
use reference::{
    line_of, tree_line_of, whole_line, write_plan, write_tree_plan, Outcome, Phrase, Refusal as Reason, TreeOutcome,
};

/// Number 8 of document 01's table: the lent buffer is shorter than the text.
pub const TOO_SHORT: u32 = 8;

/// What the reference expects of a call: number and place, and what is put at the front of the buffer. Where nothing is
/// put, no buffer is too short.
pub struct Expected {
    number: u32,
    place: u32,
    text: Vec<u8>,
}

impl Expected {
    /// Of planning a row: the text of its plan, or the refusal and no text.
    pub fn planning(outcome: &Outcome) -> Expected {
        let mut text = Vec::new();
        outcome.iter().for_each(|plan| write_plan(plan, &mut text));
        Expected::new(outcome, text)
    }

    /// Of explaining a row: its line, whether it is refused or planned.
    pub fn explaining(outcome: &Outcome) -> Expected {
        Expected::new(outcome, line_of(outcome).into_bytes())
    }

    /// Of planning a surveyed tree.
    pub fn planning_tree(outcome: &TreeOutcome) -> Expected {
        let mut text = Vec::new();
        outcome.iter().for_each(|plan| write_tree_plan(plan, &mut text));
        Expected::new(outcome, text)
    }

    /// Of explaining a surveyed tree.
    pub fn explaining_tree(outcome: &TreeOutcome) -> Expected {
        Expected::new(outcome, tree_line_of(outcome).into_bytes())
    }

    fn new<T>(outcome: &Result<T, Reason>, text: Vec<u8>) -> Expected {
        let (number, place) = outcome.as_ref().map_or_else(|refusal| (refusal.number, refusal.place), |_| (0, 0));
        Expected { number, place, text }
    }

    /// Of explaining a refusal by number and place: its line, where those alone determine it. Number 0 and place 0 are
    /// answered with a line and without one.
    pub fn explaining_refusal(number: u32, place: u32) -> Expected {
        let words = whole_line(number, place).map_or("", Phrase::words);
        Expected { number: 0, place: 0, text: words.as_bytes().to_vec() }
    }

    /// What is put at the front of a buffer that has the room for it.
    pub fn text(&self) -> &[u8] {
        &self.text
    }

    /// The answer with a buffer of this length.
    pub fn answer(&self, room: usize) -> Answer {
        if self.text.len() > room {
            Answer { number: TOO_SHORT, place: 0, length: 0 }
        } else {
            Answer { number: self.number, place: self.place, length: self.text.len() as u64 }
        }
    }

    /// The answer of `planner_check_row` or `planner_check_tree`, which have no buffer that could be too short.
    pub fn checked(&self) -> Answer {
        self.answer(usize::MAX)
    }

    /// What is put at the front of a buffer of this length.
    pub fn written(&self, room: usize) -> &[u8] {
        if self.text.len() > room {
            &[]
        } else {
            &self.text
        }
    }
}

/// What was found after a call with a lent buffer. The buffer lies within a larger memory, so that bytes around it can
/// be looked at too.
pub struct Found<'a> {
    pub answer: Answer,
    /// The whole memory before the call.
    pub before: &'a [u8],
    /// The whole memory after the call.
    pub after: &'a [u8],
    /// Where the lent buffer starts in it.
    pub start: usize,
    /// The lent length.
    pub room: usize,
}

/// How a call of this entry, which has no buffer, differs from what is expected.
pub fn of_check(entry: &str, expected: &Expected, answer: Answer) -> Result<(), String> {
    of_answers(expected.checked(), answer).map_err(|report| format!("{entry}: {report}"))
}

/// How a call of this entry with a lent buffer differs from what is expected.
pub fn of_lent(entry: &str, expected: &Expected, found: &Found) -> Result<(), String> {
    of_answers(expected.answer(found.room), found.answer)
        .and_then(|()| of_memory(expected.written(found.room), found))
        .map_err(|report| format!("{entry} with {} bytes lent: {report}", found.room))
}

/// How what `planner_read_reason` read from a line differs from what is expected; no reason is number 0 and place 0.
pub fn of_reading(line: &[u8], expected: Option<(u32, u32)>, found: Refusal) -> Result<(), String> {
    let (number, place) = expected.unwrap_or((0, 0));
    if found == (Refusal { number, place }) {
        Ok(())
    } else {
        let line = line.escape_ascii();
        Err(format!("planner_read_reason: answered {found:?}, expected number {number}, place {place}, of \"{line}\""))
    }
}

fn of_answers(expected: Answer, found: Answer) -> Result<(), String> {
    if expected == found {
        Ok(())
    } else {
        Err(format!("answered {found:?}, expected {expected:?}"))
    }
}

fn of_memory(text: &[u8], found: &Found) -> Result<(), String> {
    match first_wrong_byte(text, found) {
        None => Ok(()),
        Some(at) => Err(format!(
            "byte {} of the buffer, counted from 0, is {:?}, expected {:?}; both answer {:?}",
            at as i64 - found.start as i64,
            found.after.get(at),
            expected_byte(text, found, at),
            found.answer
        )),
    }
}

/// The first byte of the memory that is not as it must be: the text at the front of the buffer, every other as before.
fn first_wrong_byte(text: &[u8], found: &Found) -> Option<usize> {
    let end = found.start + text.len();
    let same = found.after.len() == found.before.len()
        && found.after[..found.start] == found.before[..found.start]
        && found.after[found.start..end] == *text
        && found.after[end..] == found.before[end..];
    let length = found.after.len().max(found.before.len());
    let differs = |at: &usize| found.after.get(*at).copied() != expected_byte(text, found, *at);
    (!same).then(|| (0..length).find(differs).unwrap_or(length))
}

fn expected_byte(text: &[u8], found: &Found, at: usize) -> Option<u8> {
    let in_text = at.checked_sub(found.start).and_then(|at| text.get(at));
    in_text.or(found.before.get(at)).copied()
}

/// Each test changes one thing in what a right planner leaves and must see it reported.
#[cfg(test)]
mod tests {
    use super::*;
    use reference::{plan_row, Heading};

    const PLANNED: &[u8] = b"8 4 1 2 1 0 1 1 1 19 7 0";
    const REFUSED: &[u8] = b"0 0 0 0 5 0 0 1 1 19 7 0";
    const START: usize = 5;

    fn plan(row: &[u8]) -> Expected {
        Expected::planning(&plan_row(Heading::WithoutLoss, row))
    }

    fn line(row: &[u8]) -> Expected {
        Expected::explaining(&plan_row(Heading::WithoutLoss, row))
    }

    /// All that puts a text.
    fn texts() -> [Expected; 4] {
        [plan(PLANNED), line(PLANNED), line(REFUSED), Expected::explaining_refusal(9, 0)]
    }

    /// A memory with a buffer of this length and guard bytes before and behind it.
    fn memory(room: usize) -> Vec<u8> {
        (0..START + room + 7).map(|at| at as u8 | 0x80).collect()
    }

    /// The report on a call that is right but for a change to its answer and to the memory after it.
    fn report(expected: &Expected, room: usize, change: impl Fn(&mut Answer, &mut Vec<u8>)) -> Result<(), String> {
        let before = memory(room);
        let mut after = before.clone();
        let text = expected.written(room);
        after[START..START + text.len()].copy_from_slice(text);
        let mut answer = expected.answer(room);
        change(&mut answer, &mut after);
        of_lent("an entry", expected, &Found { answer, before: &before, after: &after, start: START, room })
    }

    #[test]
    fn right_calls_pass() {
        for expected in texts().iter().chain([&plan(REFUSED), &Expected::explaining_refusal(7, 0)]) {
            let length = expected.text.len();
            for room in [0, 1, length.saturating_sub(1), length, length + 1, 500] {
                assert_eq!(report(expected, room, |_, _| ()), Ok(()));
            }
        }
    }

    #[test]
    fn expected_answers() {
        let answer = |expected: Expected, room| {
            let Answer { number, place, length } = expected.answer(room);
            (number, place, length)
        };
        assert_eq!(answer(plan(REFUSED), 0), (7, 0, 0));
        assert_eq!(answer(line(REFUSED), 82), (7, 0, 82));
        assert_eq!(answer(line(REFUSED), 81), (8, 0, 0));
        assert_eq!(answer(line(PLANNED), 19), (0, 0, 19));
        assert_eq!(answer(line(PLANNED), 18), (8, 0, 0));
        assert_eq!(answer(Expected::explaining_refusal(1, 0), 40), (0, 0, 40));
        assert_eq!(answer(Expected::explaining_refusal(1, 0), 39), (8, 0, 0));
        assert_eq!(answer(Expected::explaining_refusal(1, 1), 0), (0, 0, 0));
    }

    #[test]
    fn wrong_checks_are_reported() {
        let expected = plan(REFUSED);
        let right = expected.checked();
        assert_eq!(right, Answer { number: 7, place: 0, length: 0 });
        let check = |answer| of_check("an entry", &expected, answer);
        assert_eq!(check(right), Ok(()));
        assert!(check(Answer { number: 6, ..right }).is_err());
        assert!(check(Answer { place: 1, ..right }).is_err());
        assert!(check(Answer { length: 1, ..right }).is_err());
    }

    #[test]
    fn wrong_readings_are_reported() {
        let read = |expected, number, place| of_reading(b"a line", expected, Refusal { number, place });
        assert_eq!(read(Some((4, 7)), 4, 7), Ok(()));
        assert_eq!(read(None, 0, 0), Ok(()));
        assert!(read(Some((4, 7)), 4, 8).is_err());
        assert!(read(Some((4, 7)), 3, 7).is_err());
        assert!(read(Some((4, 7)), 0, 0).is_err());
        assert!(read(None, 0, 1).is_err());
        assert!(read(None, 9, 0).is_err_and(|report| report.contains("\"a line\"")));
    }

    #[test]
    fn a_number_or_place_off_by_one() {
        for expected in texts().iter().chain([&plan(REFUSED)]) {
            assert!(report(expected, 500, |answer, _| answer.place += 1).is_err());
            assert!(report(expected, 500, |answer, _| answer.number += 1).is_err());
        }
    }

    #[test]
    fn a_length_off_by_one() {
        for expected in texts() {
            assert!(report(&expected, 500, |answer, _| answer.length -= 1).is_err());
            assert!(report(&expected, 500, |answer, _| answer.length += 1).is_err());
        }
        assert!(report(&plan(REFUSED), 500, |answer, _| answer.length += 1).is_err());
    }

    #[test]
    fn any_byte_of_the_text() {
        for expected in texts() {
            for at in 0..expected.text.len() {
                let reported = report(&expected, 500, |_, after| after[START + at] ^= 1);
                assert!(reported.is_err_and(|report| report.contains(&format!("byte {at} of"))));
            }
        }
    }

    #[test]
    fn any_byte_behind_the_text() {
        for expected in texts() {
            for at in expected.text.len()..500 {
                assert!(report(&expected, 500, |_, after| after[START + at] = 0).is_err());
            }
        }
    }

    #[test]
    fn guard_bytes() {
        for expected in texts().iter().chain([&plan(REFUSED)]) {
            assert!(report(expected, 500, |_, after| after[START - 1] ^= 1).is_err());
            assert!(report(expected, 500, |_, after| after[START + 500] ^= 1).is_err());
            assert!(report(expected, 500, |_, after| after.truncate(START + 500)).is_err());
        }
    }

    #[test]
    fn a_refusal_that_clears_the_buffer() {
        for expected in [plan(REFUSED), Expected::explaining_refusal(7, 0)] {
            assert!(report(&expected, 500, |_, after| after[START..START + 500].fill(0)).is_err());
            assert!(report(&expected, 1, |_, after| after[START] = 0).is_err());
        }
    }

    #[test]
    fn a_buffer_too_short() {
        for expected in texts() {
            let room = expected.text.len() - 1;
            let too_short = expected.answer(room);
            assert!(report(&expected, room, |_, after| after[START] = expected.text[0]).is_err());
            assert!(report(&expected, room, |answer, _| answer.length = room as u64 + 1).is_err());
            assert!(report(&expected, room, |answer, _| *answer = expected.checked()).is_err());
            assert!(report(&expected, room + 1, |answer, _| *answer = too_short).is_err());
        }
    }

    #[test]
    fn a_text_that_was_not_written() {
        let untouched = memory(500);
        for expected in texts() {
            assert!(report(&expected, 500, |_, after| after.clone_from(&untouched)).is_err());
        }
    }
}
