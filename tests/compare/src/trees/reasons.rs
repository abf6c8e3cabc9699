//! Calls of the entry that puts a surveyed tree's refusal into words, and of the one that reads the words back.

use super::calls::is_kept;
use super::entries::TreePlanner;
use super::totals::TreeTotals;
use crate::difference::{of_lent, Expected};
use crate::lent::Lent;
use crate::reasons::{check_length, Reasons, DAMAGED};
use reference::rows::{damaged_tree_line, made_up_tree_line};
use reference::{read_reason, Beside, TreeOutcome};

impl<P: TreePlanner> Reasons<'_, P> {
    /// Compares the line of a list, what is read from it, and what is read from lines like it.
    pub fn compare_list(
        &mut self,
        nodes: &mut Lent,
        beside: &Beside,
        outcome: &TreeOutcome,
        totals: &mut TreeTotals,
    ) -> Result<(), String> {
        let expected = Expected::explaining_tree(outcome);
        check_length(expected.text())?;
        for room in self.draw_rooms(expected.text().len()) {
            let found = self.caller.lend(room, |planner, line| planner.explain_tree(nodes.lend(), beside, line));
            totals.note_buffer(&found);
            of_lent("planner_explain_tree", &expected, &found)?;
            is_kept(nodes)?;
        }
        self.read_list_lines(expected.text(), totals)
    }

    /// Reads the line, damaged ones, the front of it with the rest right behind, and one made up.
    fn read_list_lines(&mut self, line: &[u8], totals: &mut TreeTotals) -> Result<(), String> {
        let front = self.caller.rng.index(line.len());
        self.read_counted(Lent::front(line, front), totals)?;
        let mut lines = vec![line.to_vec(), made_up_tree_line(&mut self.caller.rng)];
        lines.extend((0..DAMAGED).map(|_| damaged_tree_line(&mut self.caller.rng, line)));
        for line in lines {
            let line = Lent::new(&mut self.caller.rng, &line);
            self.read_counted(line, totals)?;
        }
        Ok(())
    }

    /// Reads a line and counts it by what it is to be read as.
    fn read_counted(&self, line: Lent, totals: &mut TreeTotals) -> Result<(), String> {
        let expected = read_reason(line.content());
        totals.note_read(expected);
        self.read_line(line, expected)
    }
}
