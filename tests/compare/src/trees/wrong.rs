//! For tests: the reference behind the entries for trees, with one rule changed or one thing wrong in its answers.

mod rules;

use super::calls::TreeCalls;
use super::entries::TreePlanner;
use crate::difference::Expected;
use crate::entries::{Answer, Memory, Planner, Refusal};
use crate::wrong::{put, Wrong};
use reference::{plan_tree_checking, Beside, TreeOutcome};
use rules::{Change, Check, Reading, Taking};
use std::cell::RefCell;

/// What becomes of an answer, a list and a buffer after a right call.
pub type Fault = Box<dyn Fn(&mut Answer, &mut [u8], &mut [u8])>;

/// Right but for what these do.
pub struct WrongTree {
    pub reading: Reading,
    pub taking: Taking,
    pub check: Check,
    pub change: Change,
    pub planning: Fault,
    pub explaining: Fault,
    /// The entries for rows, and the reading of lines.
    pub rows: Wrong,
}

/// Nothing wrong.
impl Default for WrongTree {
    fn default() -> WrongTree {
        WrongTree {
            reading: <[u8]>::to_vec,
            taking: |beside| *beside,
            check: |network| network.check(),
            change: |_, _| (),
            planning: Box::new(|_, _, _| ()),
            explaining: Box::new(|_, _, _| ()),
            rows: Wrong::default(),
        }
    }
}

impl WrongTree {
    pub fn reading(reading: Reading) -> WrongTree {
        WrongTree { reading, ..WrongTree::default() }
    }

    pub fn taking(taking: Taking) -> WrongTree {
        WrongTree { taking, ..WrongTree::default() }
    }

    pub fn checking(check: Check) -> WrongTree {
        WrongTree { check, ..WrongTree::default() }
    }

    pub fn changing(change: Change) -> WrongTree {
        WrongTree { change, ..WrongTree::default() }
    }

    /// What the planner makes of a list.
    pub fn outcome(&self, list: &[u8], beside: &Beside) -> TreeOutcome {
        let links = RefCell::new(Vec::new());
        let mut plan = plan_tree_checking(&(self.reading)(list), &(self.taking)(beside), |network| {
            *links.borrow_mut() = network.links();
            (self.check)(network)
        })?;
        (self.change)(&links.into_inner(), &mut plan);
        Ok(plan)
    }
}

impl Planner for WrongTree {
    fn check_row(&self, names: Memory, row: Memory) -> Answer {
        self.rows.check_row(names, row)
    }

    fn plan_row(&self, names: Memory, row: Memory, text: Memory) -> Answer {
        self.rows.plan_row(names, row, text)
    }

    fn explain_row(&self, names: Memory, row: Memory, line: Memory) -> Answer {
        self.rows.explain_row(names, row, line)
    }

    fn explain_refusal(&self, number: u32, place: u32, line: Memory) -> Answer {
        self.rows.explain_refusal(number, place, line)
    }

    fn read_reason(&self, line: Memory) -> Refusal {
        self.rows.read_reason(line)
    }
}

impl TreePlanner for WrongTree {
    fn check_tree(&self, nodes: Memory, beside: &Beside) -> Answer {
        Expected::planning_tree(&self.outcome(nodes.unwrap_or_default(), beside)).checked()
    }

    fn plan_tree(&self, nodes: Memory, beside: &Beside, text: Memory) -> Answer {
        let (nodes, text) = (nodes.unwrap_or_default(), text.unwrap_or_default());
        let mut answer = put(&Expected::planning_tree(&self.outcome(nodes, beside)), text);
        (self.planning)(&mut answer, nodes, text);
        answer
    }

    fn explain_tree(&self, nodes: Memory, beside: &Beside, line: Memory) -> Answer {
        let (nodes, line) = (nodes.unwrap_or_default(), line.unwrap_or_default());
        let mut answer = put(&Expected::explaining_tree(&self.outcome(nodes, beside)), line);
        (self.explaining)(&mut answer, nodes, line);
        answer
    }
}

/// The planner is found out within some hundred lists.
pub fn is_found_out(planner: &impl TreePlanner) -> bool {
    let mut calls = TreeCalls::new(planner, 1);
    (0..1_500).any(|_| calls.next_list().is_err())
}

mod tests {
    use super::rules::{WRONG_CHECKS, WRONG_LINES, WRONG_LOSSES, WRONG_READINGS};
    use super::*;
    use crate::difference::TOO_SHORT;
    use reference::lists::{draw, Drawn};
    use reference::rows::Rng;
    use reference::{plan_tree, read_reason, tree_line_of};

    /// Of so many drawn lists, so many at least tell a wrong rule apart by number, place or plan.
    const DRAWN: usize = 6_000;
    const ENOUGH: usize = 10;

    fn planning(fault: impl Fn(&mut Answer, &mut [u8], &mut [u8]) + 'static) -> bool {
        is_found_out(&WrongTree { planning: Box::new(fault), ..WrongTree::default() })
    }

    fn explaining(fault: impl Fn(&mut Answer, &mut [u8], &mut [u8]) + 'static) -> bool {
        is_found_out(&WrongTree { explaining: Box::new(fault), ..WrongTree::default() })
    }

    #[test]
    fn the_right_one_passes() {
        assert!(!is_found_out(&WrongTree::default()));
    }

    /// The entries themselves.
    #[test]
    fn the_library_passes() {
        assert!(!is_found_out(&crate::entries::Library));
    }

    #[test]
    fn wrong_rules_are_found_out() {
        for (name, check) in WRONG_CHECKS {
            assert!(is_found_out(&WrongTree::checking(check)), "{name}");
        }
        for (name, change) in WRONG_LINES {
            assert!(is_found_out(&WrongTree::changing(change)), "{name}");
        }
        for (name, reading) in WRONG_READINGS {
            assert!(is_found_out(&WrongTree::reading(reading)), "{name}");
        }
        for (name, taking) in WRONG_LOSSES {
            assert!(is_found_out(&WrongTree::taking(taking)), "{name}");
        }
    }

    /// Each wrong rule is told apart by many lists, so that no seed lets it pass.
    #[test]
    fn wrong_rules_are_told_apart_often() {
        let mut rng = Rng::new(2);
        let lists: Vec<Drawn> = (0..DRAWN).map(|_| draw(&mut rng)).collect();
        let answers = |planner: &WrongTree| -> Vec<_> {
            let answer = |drawn: &Drawn| planner.outcome(&drawn.list, &drawn.beside);
            lists.iter().map(|drawn| answer(drawn).map_err(|refusal| (refusal.number, refusal.place))).collect()
        };
        let right = answers(&WrongTree::default());
        let checks = WRONG_CHECKS.map(|(name, check)| (name, WrongTree::checking(check)));
        let lines = WRONG_LINES.map(|(name, change)| (name, WrongTree::changing(change)));
        let readings = WRONG_READINGS.map(|(name, reading)| (name, WrongTree::reading(reading)));
        let losses = WRONG_LOSSES.map(|(name, taking)| (name, WrongTree::taking(taking)));
        for (name, wrong) in checks.into_iter().chain(lines).chain(readings).chain(losses) {
            let told = right.iter().zip(answers(&wrong)).filter(|(right, wrong)| *right != wrong).count();
            println!("{name}: {told} of {DRAWN} lists");
            assert!(told >= ENOUGH, "{name}: {told}");
        }
    }

    #[test]
    fn place_off_by_one_in_one_number() {
        for number in [3, 4, 5, 6, 7, 8, 10] {
            assert!(planning(move |answer, _, _| answer.place += u32::from(answer.number == number)), "{number}");
            assert!(explaining(move |answer, _, _| answer.place += u32::from(answer.number == number)), "{number}");
        }
    }

    #[test]
    fn one_byte_of_the_text_or_behind_it() {
        let last = |answer: &mut Answer, _: &mut [u8], text: &mut [u8]| {
            if answer.length > 0 {
                text[answer.length as usize - 2] ^= 1;
            }
        };
        let behind = |answer: &mut Answer, _: &mut [u8], text: &mut [u8]| {
            if let (0, Some(behind)) = (answer.number, text.get_mut(answer.length as usize)) {
                *behind = 0;
            }
        };
        assert!(planning(last) && planning(behind) && explaining(last) && explaining(behind));
    }

    #[test]
    fn refusals_that_clear_the_buffer() {
        for number in [3, 4, 5, 6, 7, 8, 10] {
            assert!(planning(move |answer, _, text| {
                if answer.number == number {
                    text.fill(0);
                }
            }));
        }
        assert!(explaining(|answer, _, line| {
            if answer.number == TOO_SHORT {
                line.fill(0);
            }
        }));
    }

    #[test]
    fn a_changed_list() {
        let change = |_: &mut Answer, nodes: &mut [u8], _: &mut [u8]| {
            nodes.iter_mut().take(1).for_each(|byte| *byte ^= 1);
        };
        assert!(planning(change) && explaining(change));
    }

    #[test]
    fn number_8_for_a_buffer_that_is_just_long_enough() {
        let too_short = |answer: &mut Answer, _: &mut [u8], text: &mut [u8]| {
            if answer.length as usize == text.len() && answer.length > 0 {
                *answer = Answer { number: TOO_SHORT, place: 0, length: 0 };
            }
        };
        assert!(planning(too_short) && explaining(too_short));
    }

    /// A planner that reads only the lines of rows, or one place of those of trees wrongly.
    #[test]
    fn reading() {
        let reading = |wrong: fn(&[u8], Refusal) -> Refusal| {
            let reading = move |line: &mut [u8]| {
                let (number, place) = read_reason(line).unwrap_or((0, 0));
                wrong(line, Refusal { number, place })
            };
            let rows = Wrong { reading: Box::new(reading), ..Wrong::default() };
            is_found_out(&WrongTree { rows, ..WrongTree::default() })
        };
        const NONE: Refusal = Refusal { number: 0, place: 0 };
        assert!(!reading(|_, right| right));
        assert!(reading(|_, right| if right.number == 10 { NONE } else { right }));
        assert!(reading(|line, right| if line.starts_with(b"Router") { Refusal { place: 0, ..right } } else { right }));
        assert!(reading(|line, right| Refusal {
            number: right.number + u32::from(line.starts_with(b"Line 1 ")),
            ..right
        }));
        assert!(reading(|line, right| {
            if line.starts_with(b"The tree") {
                Refusal { number: 1, place: 0 }
            } else {
                right
            }
        }));
    }

    /// Plans of lists that do not agree with those of rows are told apart, also where both alone look right.
    #[test]
    fn against_the_row() {
        let is_found_out = |planner: &WrongTree| {
            let mut calls = TreeCalls::new(planner, 1);
            (0..1_000).any(|_| calls.next_row().is_err())
        };
        assert!(!is_found_out(&WrongTree::default()));
        assert!(is_found_out(&WrongTree::checking(WRONG_CHECKS[0].1)), "{}", WRONG_CHECKS[0].0);
        assert!(is_found_out(&WrongTree::checking(WRONG_CHECKS[1].1)), "{}", WRONG_CHECKS[1].0);
        assert!(is_found_out(&WrongTree::changing(WRONG_LINES[3].1)), "{}", WRONG_LINES[3].0);
        assert!(is_found_out(&WrongTree::taking(WRONG_LOSSES[0].1)), "{}", WRONG_LOSSES[0].0);
        assert!(is_found_out(&WrongTree::taking(WRONG_LOSSES[1].1)), "{}", WRONG_LOSSES[1].0);
    }

    /// The line of a list is the one that the reference has for its outcome.
    #[test]
    fn a_right_line() {
        let list = b"NODE PARENT BURST RATE\n1 0 0 0";
        let beside = Beside { beacon_order: 8, superframe_order: 4, head: 19, data: 7, ack: 0, sink: 2, loss: 0 };
        let mut line = [b'-'; 40];
        let answer = WrongTree::default().explain_tree(Some(&mut list.to_vec()), &beside, Some(&mut line));
        assert_eq!(answer, Answer { number: 10, place: 0, length: 34 });
        assert_eq!(&line[..34], tree_line_of(&plan_tree(list, &beside)).as_bytes());
        assert_eq!(&line[34..], b"------");
    }
}
