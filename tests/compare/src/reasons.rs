//! Calls of the entries that put a refusal into words and read the words back.

use crate::caller::Caller;
use crate::difference::{of_lent, of_reading, Expected};
use crate::entries::{Memory, Planner, LONGEST_REASON};
use crate::lent::{Inputs, Lent};
use crate::totals::Totals;
use reference::rows::{damaged_line, made_up_line};
use reference::{read_reason, whole_line, Outcome};

/// Sets the draws here apart from those of the rows or lists, which come from the same seed.
const APART: u64 = 1 << 63;
/// Of so many lines one is called for with every length from 0 on.
const ALL_LENGTHS: u64 = 50;
/// So many lengths past the line's own belong to "every length".
const PAST: usize = 8;
/// Damaged lines for each line of a row or of a list.
pub(crate) const DAMAGED: usize = 3;
/// Refusals are given with numbers and places from 0 to this, and with larger ones, some of which have 1, 8 or 9 in
/// their lowest 8, 16 or 31 bits.
const MOST_SMALL: u32 = 20;
const LARGE: [u32; 10] = [255, 256, 257, 264, 265, 65_537, 65_544, 1 << 31, (1 << 31) + 9, u32::MAX];

/// The reasons of a planner under comparison: here those of rows and refusals, in `trees::reasons` those of lists.
pub struct Reasons<'a, P: Planner> {
    pub(crate) caller: Caller<'a, P>,
}

impl<'a, P: Planner> Reasons<'a, P> {
    pub fn new(planner: &'a P, seed: u64) -> Reasons<'a, P> {
        Reasons { caller: Caller::new(planner, seed ^ APART) }
    }

    /// Compares the line of a row, what is read from it, and what is read from lines like it.
    pub fn compare(&mut self, inputs: &mut Inputs, outcome: &Outcome, totals: &mut Totals) -> Result<(), String> {
        let expected = Expected::explaining(outcome);
        check_length(expected.text())?;
        for room in self.draw_rooms(expected.text().len()) {
            self.explain_row(inputs, &expected, room, totals)?;
        }
        let refusal = outcome.as_ref().err();
        totals.lines.note(refusal.map(|refusal| refusal.phrase));
        let line = Lent::new(&mut self.caller.rng, expected.text());
        self.read(line, refusal.map(|refusal| (refusal.number, refusal.place)), totals)?;
        self.read_others(expected.text(), totals)
    }

    /// Compares on refusals that are given by number and place.
    pub fn refusals(&mut self, totals: &mut Totals) -> Result<(), String> {
        let figures: Vec<u32> = (0..=MOST_SMALL).chain(LARGE).collect();
        for &number in &figures {
            for &place in &figures {
                self.refusal(number, place, totals)?;
            }
        }
        Ok(())
    }

    fn refusal(&mut self, number: u32, place: u32, totals: &mut Totals) -> Result<(), String> {
        let expected = Expected::explaining_refusal(number, place);
        let length = expected.text().len();
        check_length(expected.text())?;
        let rooms = if length == 0 { vec![0, 1, LONGEST_REASON] } else { every_room(length) };
        for room in rooms {
            self.explain_refusal((number, place), &expected, room, totals)?;
        }
        if let Some(phrase) = whole_line(number, place) {
            totals.lines.note(Some(phrase));
            let line = Lent::new(&mut self.caller.rng, expected.text());
            self.read(line, Some((number, place)), totals)?;
            self.read_others(expected.text(), totals)?;
        }
        Ok(())
    }

    /// A call of `planner_explain_row` with a buffer of this length.
    fn explain_row(
        &mut self,
        inputs: &mut Inputs,
        expected: &Expected,
        room: usize,
        totals: &mut Totals,
    ) -> Result<(), String> {
        let call = |planner: &P, line: Memory| planner.explain_row(inputs.names.lend(), inputs.row.lend(), line);
        let found = self.caller.lend(room, call);
        totals.note_explained(&found);
        of_lent("planner_explain_row", expected, &found)?;
        inputs.are_kept()
    }

    /// A call of `planner_explain_refusal` with a buffer of this length.
    fn explain_refusal(
        &mut self,
        (number, place): (u32, u32),
        expected: &Expected,
        room: usize,
        totals: &mut Totals,
    ) -> Result<(), String> {
        let found = self.caller.lend(room, |planner, line| planner.explain_refusal(number, place, line));
        totals.note_explained(&found);
        of_lent(&format!("planner_explain_refusal of number {number}, place {place}"), expected, &found)
    }

    /// Reads a line that reads as this refusal, or as none, and counts it.
    fn read(&self, line: Lent, expected: Option<(u32, u32)>, totals: &mut Totals) -> Result<(), String> {
        totals.note_read();
        self.read_line(line, expected)
    }

    /// A call of `planner_read_reason` with a line that reads as this refusal, or as none.
    pub(crate) fn read_line(&self, mut line: Lent, expected: Option<(u32, u32)>) -> Result<(), String> {
        let found = self.caller.planner.read_reason(line.lend());
        of_reading(line.content(), expected, found)?;
        if line.is_kept() {
            Ok(())
        } else {
            Err("a line that was read, or bytes beside it, were changed".to_string())
        }
    }

    /// Reads lines like this one: damaged ones, the front of it with the rest right behind, and one made up. None of
    /// them need be a line that the planner puts.
    fn read_others(&mut self, line: &[u8], totals: &mut Totals) -> Result<(), String> {
        let rng = &mut self.caller.rng;
        let mut others = vec![Lent::front(line, rng.index(line.len()))];
        for _ in 0..DAMAGED {
            let damaged = damaged_line(rng, line);
            if damaged != line {
                totals.lines.note_damaged(read_reason(line), read_reason(&damaged));
            }
            others.push(Lent::new(rng, &damaged));
        }
        let made_up = made_up_line(rng);
        others.push(Lent::new(rng, &made_up));
        for other in others {
            let expected = read_reason(other.content());
            self.read(other, expected, totals)?;
        }
        Ok(())
    }

    /// The lengths to lend for a line of this length.
    pub(crate) fn draw_rooms(&mut self, length: usize) -> Vec<usize> {
        if self.caller.rng.one_in(ALL_LENGTHS) {
            every_room(length)
        } else {
            let any = self.caller.rng.index(2 * LONGEST_REASON);
            vec![length, length - 1, 0, length + 1, any, LONGEST_REASON]
        }
    }
}

/// No line is longer than include/planner.h says.
pub(crate) fn check_length(line: &[u8]) -> Result<(), String> {
    if line.len() <= LONGEST_REASON {
        Ok(())
    } else {
        Err(format!("PLANNER_LONGEST_REASON is less than the length of \"{}\"", line.escape_ascii()))
    }
}

/// Every length up to some more than this one, and that of the longest line.
fn every_room(length: usize) -> Vec<usize> {
    (0..=length + PAST).chain([LONGEST_REASON]).collect()
}

/// A planner that is right but for one fault must be found out by the calls.
#[cfg(test)]
mod tests {
    use super::*;
    use crate::difference::TOO_SHORT;
    use crate::entries::{Answer, Refusal};
    use crate::wrong::{is_found_out, Wrong, WRONG_COUNTS};
    use reference::{Phrase, LOSS_NAMES};

    fn explaining(fault: impl Fn(&mut Answer, &mut [u8], &mut [u8]) + 'static) -> bool {
        let fault = move |_, answer: &mut Answer, row: &mut [u8], line: &mut [u8]| fault(answer, row, line);
        is_found_out(&Wrong { explaining: Box::new(fault), ..Wrong::default() })
    }

    /// The fault is in the lines of one phrase, or of planned rows, where they were put.
    fn explaining_in(phrase: Option<Phrase>, fault: impl Fn(&mut [u8]) + 'static) -> bool {
        let fault = move |put: Option<Phrase>, answer: &mut Answer, _: &mut [u8], line: &mut [u8]| {
            if put == phrase && answer.length > 0 {
                fault(&mut line[..answer.length as usize]);
            }
        };
        is_found_out(&Wrong { explaining: Box::new(fault), ..Wrong::default() })
    }

    fn explaining_refusals(fault: impl Fn((u32, u32), &mut Answer, &mut [u8]) + 'static) -> bool {
        is_found_out(&Wrong { explaining_refusals: Box::new(fault), ..Wrong::default() })
    }

    /// Reading is wrong in that this line is read in place of the one that was lent.
    fn reading(fault: impl Fn(&[u8]) -> Vec<u8> + 'static) -> bool {
        is_found_out(&Wrong { reading: Box::new(move |line| read(&fault(line))), ..Wrong::default() })
    }

    fn read(line: &[u8]) -> Refusal {
        let (number, place) = read_reason(line).unwrap_or((0, 0));
        Refusal { number, place }
    }

    #[test]
    fn lines_too_long() {
        assert!(check_length(&[b'x'; LONGEST_REASON]).is_ok());
        assert!(check_length(&[b'x'; LONGEST_REASON + 1]).is_err());
    }

    #[test]
    fn number_or_place_off_by_one() {
        for number in 0..=8 {
            assert!(explaining(move |answer, _, _| answer.place += u32::from(answer.number == number)));
            assert!(explaining(move |answer, _, _| answer.number += u32::from(answer.number == number)));
        }
    }

    #[test]
    fn a_wrong_length() {
        assert!(explaining(|answer, _, _| answer.length += u64::from(answer.number == 0)));
        assert!(explaining(|answer, _, _| answer.length = if answer.number == 0 { answer.length } else { 0 }));
    }

    /// A letter at the front of each line, and its last byte, which stands behind its values.
    #[test]
    fn one_byte_of_one_line() {
        let rows = Phrase::OF_ROWS.into_iter().filter(|phrase| phrase.number() <= 7);
        for phrase in rows.map(Some).chain([None]) {
            assert!(explaining_in(phrase, |line| line[2] ^= 0x20), "{phrase:?}");
            assert!(explaining_in(phrase, |line| line[line.len() - 1] = b'!'), "{phrase:?}");
        }
    }

    /// The first digit of a line whose words have none, and the last one.
    #[test]
    fn one_digit_of_one_line() {
        let other = |digit: &mut u8| *digit = b'0' + (*digit - b'0' + 1) % 10;
        for phrase in Phrase::OF_ROWS.into_iter().filter(|phrase| phrase.words().contains('#')) {
            let last = move |line: &mut [u8]| line.iter_mut().rfind(|byte| byte.is_ascii_digit()).map_or((), other);
            assert!(explaining_in(Some(phrase), last), "{phrase:?}");
        }
        for phrase in [Phrase::TextAfter, Phrase::Range, Phrase::Routers, Phrase::Slots] {
            let first = move |line: &mut [u8]| line.iter_mut().find(|byte| byte.is_ascii_digit()).map_or((), other);
            assert!(explaining_in(Some(phrase), first), "{phrase:?}");
        }
    }

    /// Number and place are right, but the line of number 7 shows another count of the slots that the router may
    /// reserve than that of request E2.
    #[test]
    fn another_count_of_slots_in_the_line() {
        for (name, shown) in WRONG_COUNTS {
            assert!(is_found_out(&Wrong { shown, ..Wrong::default() }), "{name}");
        }
    }

    #[test]
    fn one_byte_behind_the_line() {
        assert!(explaining(|answer, _, line| {
            if let Some(behind) = line.get_mut(answer.length as usize) {
                *behind = b'\n';
            }
        }));
    }

    #[test]
    fn a_part_of_the_line_in_a_buffer_too_short() {
        assert!(explaining(|answer, _, line| {
            if answer.number == TOO_SHORT {
                line.iter_mut().zip(b"The").for_each(|(byte, letter)| *byte = *letter);
            }
        }));
    }

    #[test]
    fn number_8_for_a_buffer_that_is_just_long_enough() {
        assert!(explaining(|answer, _, line| {
            if answer.length as usize == line.len() {
                *answer = Answer { number: TOO_SHORT, place: 0, length: 0 };
            }
        }));
    }

    #[test]
    fn a_changed_row() {
        assert!(explaining(|_, row, _| row.iter_mut().take(1).for_each(|byte| *byte ^= 1)));
    }

    #[test]
    fn refusals_without_their_line() {
        for number in [1, 8, 9] {
            assert!(explaining_refusals(move |refusal, answer, _| {
                if refusal == (number, 0) {
                    *answer = Answer { number: 0, place: 0, length: 0 };
                }
            }));
            assert!(explaining_refusals(move |refusal, answer, _| answer.number += u32::from(refusal == (number, 0))));
            assert!(explaining_refusals(move |refusal, answer, line| {
                if refusal == (number, 0) && answer.length > 0 {
                    line[0] ^= 1;
                }
            }));
        }
    }

    #[test]
    fn refusals_with_a_line_that_is_not_theirs() {
        for wrong in [(0, 0), (1, 1), (2, 13), (4, 7), (5, 0), (8, 20), (9, 65_537), (10, 0), (257, 0), (u32::MAX, 0)] {
            assert!(explaining_refusals(move |refusal, answer, _| answer.length += u64::from(refusal == wrong)));
            assert!(explaining_refusals(move |refusal, answer, _| answer.place += u32::from(refusal == wrong)));
            assert!(explaining_refusals(move |refusal, _, line| {
                if refusal == wrong {
                    line.fill(0);
                }
            }));
        }
    }

    #[test]
    fn reading_with_one_thing_passed_over() {
        assert!(!reading(<[u8]>::to_vec));
        assert!(reading(|line| line.trim_ascii_end().to_vec()), "space behind");
        assert!(reading(|line| line.trim_ascii_start().to_vec()), "space before");
        assert!(reading(|line| line.strip_suffix(b"\0").unwrap_or(line).to_vec()), "0 byte behind");
        assert!(reading(|line| [line.strip_suffix(b".").unwrap_or(line), b"."].concat()), "no period");
        assert!(reading(|line| line.split(|&byte| byte == b'\n').next().unwrap_or_default().to_vec()), "LF");
        assert!(reading(without_leading_zeros), "leading zeros");
        assert!(reading(|line| replaced(line, " of 3 ", " of H ")), "column by its number");
        assert!(reading(|line| replaced(line, " of 13 ", " of LOSS ")), "column 13 by its number");
        assert!(reading(with_fitting_column), "wrong column");
        assert!(reading(|line| replaced(line, " 4294967308 ", " 12 ")), "place cut to 32 bits");
        assert!(reading(|line| replaced(line, " 18446744073709551628 ", " 12 ")), "place cut to 64 bits");
    }

    #[test]
    fn reading_that_refuses_too_much() {
        let long = |digits: usize| {
            move |line: &[u8]| {
                let too_long = line.split(|byte| !byte.is_ascii_digit()).any(|number| number.len() > digits);
                if too_long {
                    Vec::new()
                } else {
                    line.to_vec()
                }
            }
        };
        for digits in [10, 20, 39] {
            assert!(reading(long(digits)), "{digits}");
        }
        assert!(reading(|line| replaced(line, " of 14 ", " of x ")));
        assert!(reading(|line| replaced(line, " of 0 ", " of x ")));
        assert!(reading(|line| replaced(line, " of LOSS ", " of x ")));
        assert!(reading(|line| replaced(line, " column 14 ", " column x ")));
    }

    #[test]
    fn reading_with_one_number_or_place_wrong() {
        for wrong in 0..=9 {
            let place_off = move |line: &mut [u8]| {
                let right = read(line);
                Refusal { place: right.place.wrapping_add(u32::from(right.number == wrong)), ..right }
            };
            assert!(is_found_out(&Wrong { reading: Box::new(place_off), ..Wrong::default() }));
            let number_off = move |line: &mut [u8]| {
                let right = read(line);
                Refusal { number: right.number + u32::from(right.number == wrong), ..right }
            };
            assert!(is_found_out(&Wrong { reading: Box::new(number_off), ..Wrong::default() }));
        }
    }

    #[test]
    fn a_changed_line() {
        let change = |line: &mut [u8]| {
            let right = read(line);
            line.iter_mut().take(1).for_each(|byte| *byte ^= 1);
            right
        };
        assert!(is_found_out(&Wrong { reading: Box::new(change), ..Wrong::default() }));
    }

    fn replaced(line: &[u8], old: &str, new: &str) -> Vec<u8> {
        let text: String = line.iter().map(|&byte| char::from(byte)).collect();
        text.replace(old, new).chars().map(|letter| letter as u8).collect()
    }

    /// Whatever stands in the place of the column that values are at odds at is taken for the one that fits.
    fn with_fitting_column(line: &[u8]) -> Vec<u8> {
        let start = b"Values are at odds at ";
        let comma = line.iter().position(|&byte| byte == b',').filter(|_| line.starts_with(start));
        let with = |name: &str| comma.map(|comma| [start, name.as_bytes(), &line[comma..]].concat());
        let fitting = LOSS_NAMES.split(' ').filter_map(with).find(|other| read_reason(other).is_some());
        fitting.unwrap_or(line.to_vec())
    }

    fn without_leading_zeros(line: &[u8]) -> Vec<u8> {
        let is_digit = |at: usize| line.get(at).is_some_and(u8::is_ascii_digit);
        let leading = |at: usize| line[at] == b'0' && (at == 0 || !is_digit(at - 1)) && is_digit(at + 1);
        (0..line.len()).filter(|&at| !leading(at)).map(|at| line[at]).collect()
    }
}
