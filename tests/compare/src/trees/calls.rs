//! Calls of the entries for trees on drawn lists, with buffers of many lengths.

use super::entries::{TreePlanner, LONGEST_TREE_TEXT};
use super::totals::TreeTotals;
use crate::comparison::Comparison;
use crate::difference::{of_check, of_lent, Expected, TOO_SHORT};
use crate::entries::{Answer, LONGEST_TEXT};
use crate::lent::Lent;
use reference::lists::{self, Drawn};
use reference::rows::{self, Answered};
use reference::{plan_tree, Beside};

/// Of so many planned lists with short texts one is called with every length from 0 on.
const ALL_LENGTHS: u64 = 20;
/// A text is short up to this length.
const SHORT: usize = 700;
/// So many lengths on either side of the text's own are lent for one in so many of the other lists.
const AROUND: usize = 8;
const ALL_AROUND: u64 = 8;
/// A length above that of the longest text.
const LONG: usize = 50_000;
/// Of so many lists one is lent in part, with the rest right behind it.
const IN_PART: u64 = 20;

/// A planner under comparison on lists.
pub type TreeCalls<'a, P> = Comparison<'a, P, TreeTotals>;

/// A list on which the planner and the reference differ; or a row and its list on which the planner's answers do.
pub struct Differing {
    pub row: Option<Vec<u8>>,
    pub list: Vec<u8>,
    pub beside: Beside,
    pub report: String,
}

impl<P: TreePlanner> TreeCalls<'_, P> {
    /// Draws a list and compares on it.
    pub fn next_list(&mut self) -> Result<(), Differing> {
        let rng = &mut self.caller.rng;
        let Drawn { list, beside } = lists::draw(rng);
        let in_part = !list.is_empty() && rng.one_in(IN_PART);
        let nodes = if in_part { Lent::front(&list, rng.index(list.len())) } else { Lent::new(rng, &list) };
        let list = nodes.content().to_vec();
        self.compare(nodes, &beside).map_err(|report| Differing { row: None, list, beside, report })
    }

    fn compare(&mut self, mut nodes: Lent, beside: &Beside) -> Result<(), String> {
        let outcome = plan_tree(nodes.content(), beside);
        self.totals.seen.note(beside, &outcome);
        let expected = Expected::planning_tree(&outcome);
        if expected.text().len() > LONGEST_TREE_TEXT {
            return Err("PLANNER_LONGEST_TREE_TEXT is less than the text's length".to_string());
        }
        self.check(&mut nodes, beside, &expected)?;
        for room in self.draw_rooms(expected.text().len()) {
            self.plan(&mut nodes, beside, &expected, room)?;
        }
        self.reasons.compare_list(&mut nodes, beside, &outcome, &mut self.totals)
    }

    /// A call of `planner_check_tree`.
    fn check(&mut self, nodes: &mut Lent, beside: &Beside, expected: &Expected) -> Result<(), String> {
        self.totals.calls += 1;
        let answer = self.caller.planner.check_tree(nodes.lend(), beside);
        of_check("planner_check_tree", expected, answer)?;
        is_kept(nodes)
    }

    /// A call of `planner_plan_tree` with a buffer of this length.
    fn plan(&mut self, nodes: &mut Lent, beside: &Beside, expected: &Expected, room: usize) -> Result<(), String> {
        let found = self.caller.lend(room, |planner, text| planner.plan_tree(nodes.lend(), beside, text));
        self.totals.note_buffer(&found);
        of_lent("planner_plan_tree", expected, &found)?;
        is_kept(nodes)
    }

    /// The lengths to lend for a list whose text has this length; 0 where it is refused.
    fn draw_rooms(&mut self, length: usize) -> Vec<usize> {
        let rng = &mut self.caller.rng;
        if length == 0 {
            return vec![0, rng.index(300), LONGEST_TREE_TEXT];
        }
        if length <= SHORT && rng.one_in(ALL_LENGTHS) {
            return (0..=length + AROUND).collect();
        }
        let any = rng.index(length + 100);
        let mut rooms = vec![length - 1, length, length + 1, 0, any, LONGEST_TREE_TEXT - 1, LONGEST_TREE_TEXT, LONG];
        if rng.one_in(ALL_AROUND) {
            rooms.extend(length - AROUND..=length + AROUND);
        }
        rooms
    }

    /// Draws a row whose full tree can be listed, and holds the planner's answer to that list against the planner's
    /// answer to the row. The reference has no part in it.
    pub fn next_row(&mut self) -> Result<(), Differing> {
        let listed = rows::listed(&mut self.caller.rng);
        let mut names = listed.heading.names().as_bytes().to_vec();
        let (mut row, mut list) = (listed.row.clone(), listed.list.clone());
        let (mut row_text, mut tree_text) = (vec![0; LONGEST_TEXT], vec![0; LONGEST_TREE_TEXT]);
        let of_row = self.caller.planner.plan_row(Some(&mut names), Some(&mut row), Some(&mut row_text));
        let of_tree = self.caller.planner.plan_tree(Some(&mut list), &listed.beside, Some(&mut tree_text));
        self.totals.note_row(of_row.number, listed.beside.loss);
        let compared = answered(of_row, &row_text)
            .and_then(|of_row| listed.compare(of_row, answered(of_tree, &tree_text)?))
            .map_err(|report| format!("against the row: {report}"));
        compared.map_err(|report| Differing {
            row: Some(listed.row.clone()),
            list: listed.list.clone(),
            beside: listed.beside,
            report,
        })
    }
}

/// Nothing was changed in a list or beside it.
pub fn is_kept(nodes: &Lent) -> Result<(), String> {
    if nodes.is_kept() {
        Ok(())
    } else {
        Err("the list, or bytes beside it, were changed".to_string())
    }
}

/// An answer with its text; a buffer of the longest text's length is never too short.
fn answered(answer: Answer, buffer: &[u8]) -> Result<Answered<'_>, String> {
    let text = buffer.get(..answer.length as usize).filter(|_| answer.number != TOO_SHORT);
    let text = text.ok_or_else(|| format!("{answer:?} with the longest buffer"))?;
    Ok(Answered { number: answer.number, place: answer.place, text })
}
