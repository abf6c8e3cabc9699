//! Calls of the entries on random rows, with buffers of many lengths.

use crate::comparison::Comparison;
use crate::difference::{of_check, of_lent, Expected};
use crate::entries::{Memory, Planner, LONGEST_TEXT};
use crate::lent::Inputs;
use crate::totals::Totals;
use reference::plan_named_row;
use reference::rows;

/// Of so many planned rows one is called with every length from 0 on.
const ALL_LENGTHS: u64 = 20;
/// So many lengths past the text's own belong to "every length".
const PAST: usize = 8;
/// A length above that of the longest text.
const LONG: usize = 5000;

/// A planner under comparison on rows.
pub type Calls<'a, P> = Comparison<'a, P, Totals>;

/// A row under a name line on which the planner and the reference differ.
pub struct Differing {
    pub names: Vec<u8>,
    pub row: Vec<u8>,
    pub report: String,
}

impl<P: Planner> Calls<'_, P> {
    /// Draws a row and compares on it.
    pub fn next_row(&mut self) -> Result<(), Differing> {
        let (names, row) = rows::named_row(&mut self.caller.rng);
        self.compare(&names, &row).map_err(|report| Differing { names, row, report })
    }

    /// Compares on the refusals that are given by number and place.
    pub fn refusals(&mut self) -> Result<(), String> {
        self.reasons.refusals(&mut self.totals)
    }

    fn compare(&mut self, names: &[u8], row: &[u8]) -> Result<(), String> {
        let outcome = plan_named_row(names, row);
        self.totals.rows += 1;
        self.totals.seen.note(names, row, &outcome);
        let mut inputs = Inputs::new(&mut self.caller.rng, names, row);
        let expected = Expected::planning(&outcome);
        self.check(&mut inputs, &expected)?;
        for room in self.draw_rooms(expected.text().len()) {
            self.plan(&mut inputs, &expected, room)?;
        }
        self.reasons.compare(&mut inputs, &outcome, &mut self.totals)
    }

    /// A call of `planner_check_row`.
    fn check(&mut self, inputs: &mut Inputs, expected: &Expected) -> Result<(), String> {
        self.totals.calls += 1;
        let answer = self.caller.planner.check_row(inputs.names.lend(), inputs.row.lend());
        of_check("planner_check_row", expected, answer)?;
        inputs.are_kept()
    }

    /// A call of `planner_plan_row` with a buffer of this length.
    fn plan(&mut self, inputs: &mut Inputs, expected: &Expected, room: usize) -> Result<(), String> {
        let call = |planner: &P, text: Memory| planner.plan_row(inputs.names.lend(), inputs.row.lend(), text);
        let found = self.caller.lend(room, call);
        self.totals.note_buffer(&found);
        of_lent("planner_plan_row", expected, &found)?;
        inputs.are_kept()
    }

    /// The lengths to lend for a row whose text has this length; 0 where it is refused.
    fn draw_rooms(&mut self, length: usize) -> Vec<usize> {
        let rng = &mut self.caller.rng;
        if length == 0 {
            vec![0, rng.index(300), LONGEST_TEXT]
        } else if rng.one_in(ALL_LENGTHS) {
            (0..=length + PAST).collect()
        } else {
            let any = rng.index(length + 100);
            vec![length - 1, length, length + 1, 0, 1, any, LONGEST_TEXT, LONG]
        }
    }
}

/// A planner that is right but for one fault must be found out by the calls.
#[cfg(test)]
mod tests {
    use crate::difference::TOO_SHORT;
    use crate::entries::{Answer, Library};
    use crate::wrong::{is_found_out, Wrong, WRONG_COUNTS, WRONG_LOSSES};

    fn fault_is_found_out(fault: impl Fn(&mut Answer, &mut [u8], &mut [u8]) + 'static) -> bool {
        is_found_out(&Wrong { planning: Box::new(fault), ..Wrong::default() })
    }

    #[test]
    fn the_right_ones_pass() {
        assert!(!is_found_out(&Library));
        assert!(!is_found_out(&Wrong::default()));
    }

    /// Number 7 by another count of the slots that a router may reserve than that of request E2.
    #[test]
    fn another_count_of_slots() {
        for (name, count) in WRONG_COUNTS {
            assert!(is_found_out(&Wrong::counting(count)), "{name}");
        }
    }

    /// Exchanges and name lines by another rule than that of request E5.
    #[test]
    fn another_rule_for_loss() {
        for (name, reading) in WRONG_LOSSES {
            assert!(is_found_out(&Wrong { reading_rows: reading, ..Wrong::default() }), "{name}");
        }
    }

    #[test]
    fn place_off_by_one_in_one_number() {
        for number in 1..=8 {
            assert!(fault_is_found_out(move |answer, _, _| answer.place += u32::from(answer.number == number)));
        }
    }

    #[test]
    fn one_digit_of_the_text() {
        assert!(fault_is_found_out(|answer, _, text| {
            if answer.number == 0 {
                text[answer.length as usize - 2] ^= 1;
            }
        }));
    }

    #[test]
    fn one_byte_behind_the_text() {
        assert!(fault_is_found_out(|answer, _, text| {
            if let (0, Some(behind)) = (answer.number, text.get_mut(answer.length as usize)) {
                *behind = 0;
            }
        }));
    }

    #[test]
    fn refusals_that_clear_the_buffer() {
        for number in 1..=8 {
            assert!(fault_is_found_out(move |answer, _, text| {
                if answer.number == number {
                    text.fill(0);
                }
            }));
        }
    }

    #[test]
    fn a_changed_row() {
        assert!(fault_is_found_out(|_, row, _| row.iter_mut().take(1).for_each(|byte| *byte ^= 1)));
    }

    #[test]
    fn number_8_for_a_buffer_that_is_just_long_enough() {
        assert!(fault_is_found_out(|answer, _, text| {
            if answer.length as usize == text.len() && answer.number == 0 {
                *answer = Answer { number: TOO_SHORT, place: 0, length: 0 };
            }
        }));
    }
}
