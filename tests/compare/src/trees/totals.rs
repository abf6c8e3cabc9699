//! What a run has compared of surveyed trees.

use crate::difference::{Found, TOO_SHORT};
use reference::lists::TreeSeen;
use std::collections::BTreeMap;
use std::fmt;

/// Counts of a run.
#[derive(Default)]
pub struct TreeTotals {
    pub calls: u64,
    pub buffers: u64,
    /// Buffers answered with number 8.
    pub too_short: u64,
    /// Bytes of memories around calls, and of outputs of the program.
    pub bytes: u64,
    pub seen: TreeSeen,
    /// Lines that were read, by the number that was to be read; 0 for those that are no reason.
    read: BTreeMap<u32, u64>,
    /// Rows against which the list of their full tree was held, planned with LOSS 0, planned with another and refused.
    rows: [u64; 3],
    inputs: u64,
}

impl TreeTotals {
    /// Counts a call with a buffer.
    pub fn note_buffer(&mut self, found: &Found) {
        self.calls += 1;
        self.buffers += 1;
        self.too_short += u64::from(found.answer.number == TOO_SHORT);
        self.bytes += found.before.len() as u64;
    }

    /// Counts a line that was to be read as this number and place, or as no reason.
    pub fn note_read(&mut self, expected: Option<(u32, u32)>) {
        self.calls += 1;
        *self.read.entry(expected.map_or(0, |(number, _)| number)).or_default() += 1;
    }

    /// Counts a row with this LOSS that was answered with this number.
    pub fn note_row(&mut self, number: u32, loss: u32) {
        self.calls += 2;
        let sort = match (number, loss) {
            (0, 0) => 0,
            (0, _) => 1,
            _ => 2,
        };
        self.rows[sort] += 1;
    }

    /// Counts an input of the program, with this many bytes of output.
    pub fn note_input(&mut self, length: usize) {
        self.inputs += 1;
        self.bytes += length as u64;
    }

    /// What can be reached and was not.
    pub fn missing(&self) -> Vec<String> {
        let numbers = (0..=10).filter(|number| !self.read.contains_key(number));
        let sorts = ["planned with LOSS 0", "planned with another LOSS", "refused"];
        let rows = self.rows.iter().zip(sorts).filter(|(count, _)| **count == 0);
        let mut missing = self.seen.missing();
        missing.extend(numbers.map(|number| format!("a line that reads as number {number}")));
        missing.extend(rows.map(|(_, name)| format!("a row that is {name}")));
        missing
    }
}

/// The lists, the rows, and a line of totals.
impl fmt::Display for TreeTotals {
    fn fmt(&self, out: &mut fmt::Formatter) -> fmt::Result {
        let lines: u64 = self.read.values().sum();
        let [planned, lossy, refused] = self.rows;
        writeln!(out, "{}", self.seen)?;
        write!(out, "lists held against the row of their tree: ")?;
        writeln!(out, "{planned} planned with LOSS 0, {lossy} with another, {refused} refused")?;
        write!(
            out,
            "lists {}, calls {}, buffers {} (too short: {}), lines read {lines}, inputs {}, bytes compared {}: \
             no difference",
            self.seen.planned() + self.seen.refused(),
            self.calls,
            self.buffers,
            self.too_short,
            self.inputs,
            self.bytes
        )
    }
}

#[cfg(test)]
mod tests {
    use super::*;

    #[test]
    fn what_is_missing_is_named() {
        let mut totals = TreeTotals::default();
        let lists = totals.seen.missing().len();
        assert_eq!(totals.missing().len(), lists + 11 + 3);
        totals.note_read(Some((10, 3)));
        totals.note_read(None);
        totals.note_row(0, 0);
        assert_eq!(totals.missing().len(), lists + 9 + 2);
        totals.note_row(0, 3);
        assert_eq!(totals.missing().len(), lists + 9 + 1);
        assert!(totals.missing().contains(&"a row that is refused".to_string()));
        totals.note_row(4, 3);
        assert_eq!(totals.missing().len(), lists + 9);
    }
}
