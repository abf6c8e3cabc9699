//! Twins (request E5 of document 02): a row under 12 names and the same row with LOSS 0 under 13 names must be answered
//! alike, in number, place, text and line. The reference has no part in it.

use crate::calls::{Calls, Differing};
use crate::entries::{Answer, Memory, Planner, LONGEST_REASON, LONGEST_TEXT};
use reference::rows;
use reference::Heading;

/// An answer and the whole buffer that it was lent.
type Put = (Answer, Vec<u8>);

impl<P: Planner> Calls<'_, P> {
    /// Draws a row and compares the planner's answers to it and to its twin.
    pub fn next_twins(&mut self) -> Result<(), Differing> {
        let twins = rows::twin_rows(&mut self.caller.rng);
        let planner = self.caller.planner;
        let plans = put(&twins, LONGEST_TEXT, |names, row, text| planner.plan_row(names, row, text));
        let lines = put(&twins, LONGEST_REASON, |names, row, line| planner.explain_row(names, row, line));
        self.totals.note_twins(plans[0].0.number);
        let compared = alike("planner_plan_row", &plans).and_then(|()| alike("planner_explain_row", &lines));
        let [row, _] = twins;
        compared.map_err(|report| Differing { names: Heading::WithoutLoss.names().into(), row, report })
    }
}

/// Calls an entry with both rows, each under its name line.
fn put(twins: &[Vec<u8>; 2], room: usize, call: impl Fn(Memory, Memory, Memory) -> Answer) -> [Put; 2] {
    [0, 1].map(|twin| {
        let mut names = Heading::BOTH[twin].names().as_bytes().to_vec();
        let (mut row, mut buffer) = (twins[twin].clone(), vec![0; room]);
        let answer = call(Some(&mut names), Some(&mut row), Some(&mut buffer));
        (answer, buffer)
    })
}

fn alike(entry: &str, [without, with_loss]: &[Put; 2]) -> Result<(), String> {
    if without == with_loss {
        Ok(())
    } else {
        let (without, with_loss) = (without.0, with_loss.0);
        Err(format!("{entry}: answered {without:?} under 12 names, {with_loss:?} or another text with LOSS 0"))
    }
}

/// A planner that answers twins in two ways is found out.
#[cfg(test)]
mod tests {
    use super::*;
    use crate::wrong::Wrong;

    fn is_found_out(planner: &Wrong) -> bool {
        let mut calls = Calls::new(planner, 1);
        (0..500).any(|_| calls.next_twins().is_err())
    }

    #[test]
    fn twins() {
        assert!(!is_found_out(&Wrong::default()));
        // What is done to a row under 13 names alone.
        let wrong = |planning: fn(&mut Answer, &mut [u8])| Wrong {
            planning: Box::new(move |answer, row, text| {
                if row.split(|&byte| byte == b' ').count() == 13 {
                    planning(answer, text);
                }
            }),
            ..Wrong::default()
        };
        assert!(!is_found_out(&wrong(|_, _| ())));
        assert!(is_found_out(&wrong(|answer, _| answer.place += u32::from(answer.number == 3))));
        assert!(is_found_out(&wrong(|answer, text| text[0] ^= u8::from(answer.number == 0))));
        let explaining = Wrong {
            explaining: Box::new(|_, _, row, line| line[0] ^= u8::from(row.ends_with(b" 0 0"))),
            ..Wrong::default()
        };
        assert!(is_found_out(&explaining));
    }

    #[test]
    fn twins_are_counted() {
        let planner = Wrong::default();
        let mut calls = Calls::new(&planner, 2);
        assert!((0..200).all(|_| calls.next_twins().is_ok()));
        let [planned, refused] = calls.totals.twins;
        assert!(planned > 50 && refused > 50 && planned + refused == 200, "{planned} {refused}");
    }
}
