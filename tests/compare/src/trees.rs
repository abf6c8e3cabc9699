//! Surveyed trees (request E3 of document 02, with LOSS of request E5): the entries for C and program `plan_tree`
//! against the reference, and node lists of full balanced trees against the rows that they are the trees of.

pub mod calls;
pub mod entries;
mod reasons;
pub mod totals;
#[cfg(test)]
mod wrong;

use crate::program;
use calls::{Differing, TreeCalls};
use entries::TreePlanner;
use reference::lists::{self, Input};
use reference::rows::Rng;
use reference::tree_program;
use std::path::Path;
use totals::TreeTotals;

/// From this many lists on, everything that lists can come to must have occurred.
pub const ENOUGH_LISTS: u64 = 20_000;
/// Rows with the list of their full tree, one for so many lists.
const LISTS_PER_ROW: u64 = 4;

/// Compares the entries on so many lists.
pub fn compare_lists(planner: &impl TreePlanner, seed: u64, lists: u64) -> Result<TreeTotals, String> {
    let mut calls = TreeCalls::new(planner, seed);
    for index in 0..lists {
        calls.next_list().map_err(|differing| described(seed, &format!("list {index}"), &differing))?;
        if index % LISTS_PER_ROW == 0 {
            calls.next_row().map_err(|differing| described(seed, &format!("row after list {index}"), &differing))?;
        }
    }
    let missing = if lists < ENOUGH_LISTS { Vec::new() } else { calls.totals.missing() };
    if missing.is_empty() {
        Ok(calls.totals)
    } else {
        Err(format!("NOT REACHED: {}", missing.join(", ")))
    }
}

/// Compares program `plan_tree` on so many inputs.
pub fn compare_inputs(program: &Path, seed: u64, inputs: u64, totals: &mut TreeTotals) -> Result<(), String> {
    let mut rng = Rng::new(!seed);
    for index in 0..inputs {
        let Input { arguments, list } = lists::input(&mut rng);
        let arguments: Vec<&[u8]> = arguments.iter().map(Vec::as_slice).collect();
        let expected = tree_program(&arguments, &list);
        let length = program::compare_with(program, &arguments, &list, &expected).map_err(|report| {
            let words = arguments.join(&b' ');
            let (words, list) = (words.escape_ascii(), list.escape_ascii());
            format!("DIFFERENCE: seed {seed}, input {index}\narguments \"{words}\"\nlist \"{list}\"\n{report}")
        })?;
        totals.note_input(length);
    }
    Ok(())
}

fn described(seed: u64, name: &str, differing: &Differing) -> String {
    let Differing { row, list, beside, report } = differing;
    let row = row.as_ref().map_or(String::new(), |row| format!("row \"{}\"\n", row.escape_ascii()));
    format!("DIFFERENCE: seed {seed}, {name}\n{row}list \"{}\"\nbeside {beside:?}\n{report}", list.escape_ascii())
}

#[cfg(test)]
mod tests {
    use super::wrong::WrongTree;
    use super::*;

    #[test]
    fn few_lists_need_not_come_to_everything() {
        let totals = compare_lists(&WrongTree::default(), 5, 50).ok().unwrap();
        assert_eq!(totals.seen.planned() + totals.seen.refused(), 50);
        assert!(!totals.missing().is_empty());
        assert!(totals.to_string().ends_with(": no difference"));
    }

    /// The report has all that is needed to make the call again.
    #[test]
    fn a_difference_is_described() {
        let report = compare_lists(&WrongTree::changing(|_, plan| plan.lines[0].route += 1), 5, 50).err().unwrap();
        assert!(report.starts_with("DIFFERENCE: seed 5, list "), "{report}");
        for part in ["\nlist \"NODE PARENT BURST RATE\\n1 0 ", "\nbeside Beside { beacon_order: "] {
            assert!(report.contains(part), "{report}");
        }
        assert!(report.contains("planner_plan_tree") || report.contains("planner_check_tree"), "{report}");
    }

    #[test]
    fn a_program_that_is_not_there() {
        let mut totals = TreeTotals::default();
        assert!(compare_inputs(Path::new("no such program"), 1, 1, &mut totals).is_err());
        assert_eq!(compare_inputs(Path::new("no such program"), 1, 0, &mut totals), Ok(()));
    }
}
