//! What a run has compared.

mod lines;

pub use lines::Lines;

use crate::difference::{Found, TOO_SHORT};
use reference::rows::Seen;
use std::collections::BTreeMap;
use std::fmt;

/// Counts of a run.
#[derive(Default)]
pub struct Totals {
    pub rows: u64,
    pub calls: u64,
    pub buffers: u64,
    /// Buffers answered with number 8.
    pub too_short: u64,
    pub texts: u64,
    /// Rows that were held against their twin, planned and refused.
    pub twins: [u64; 2],
    /// Inputs that both programs were given beside their twin.
    pub twin_texts: u64,
    /// Bytes of memories around calls, and of outputs of the programs.
    pub bytes: u64,
    pub seen: Seen,
    pub lines: Lines,
}

impl Totals {
    /// Counts a call with a buffer.
    pub fn note_buffer(&mut self, found: &Found) {
        self.calls += 1;
        self.buffers += 1;
        self.too_short += u64::from(found.answer.number == TOO_SHORT);
        self.bytes += found.before.len() as u64;
    }

    /// Counts a call with a buffer for a line.
    pub fn note_explained(&mut self, found: &Found) {
        self.note_buffer(found);
        self.lines.buffers += 1;
    }

    /// Counts a line that was read.
    pub fn note_read(&mut self) {
        self.calls += 1;
        self.lines.read += 1;
    }

    /// Counts an input of both programs, with this many bytes of output.
    pub fn note_text(&mut self, length: usize) {
        self.texts += 1;
        self.bytes += length as u64;
    }

    /// Counts a row that was answered with this number and held against its twin.
    pub fn note_twins(&mut self, number: u32) {
        self.calls += 4;
        self.twins[usize::from(number != 0)] += 1;
    }

    /// Counts an input that was held against its twin, with this many bytes of output.
    pub fn note_twin_texts(&mut self, length: usize) {
        self.twin_texts += 1;
        self.bytes += length as u64;
    }

    /// What can be reached and was not: refusals, shapes of plans, lines and damages of lines, twins.
    pub fn missing(&self) -> Vec<String> {
        let mut missing = self.seen.missing();
        missing.extend(self.lines.missing());
        let twins = self.twins.iter().zip(["planned", "refused"]).filter(|(count, _)| **count == 0);
        missing.extend(twins.map(|(_, name)| format!("a row with a twin that is {name}")));
        missing
    }

    fn planned(&self) -> u64 {
        self.seen.shapes.values().sum()
    }
}

/// The refusals, one line for each number with its places and their counts, phrase by phrase, the shapes, the planned
/// rows by LOSS, the twins, the lines, and a line of totals.
impl fmt::Display for Totals {
    fn fmt(&self, out: &mut fmt::Formatter) -> fmt::Result {
        let mut by_number: BTreeMap<u32, String> = BTreeMap::new();
        for ((phrase, place), count) in &self.seen.refusals {
            by_number.entry(phrase.number()).or_default().push_str(&format!(" {place}:{count}"));
        }
        for (number, places) in by_number {
            writeln!(out, "refused with {number}, place:rows{places}")?;
        }
        let fewest = self.seen.shapes.values().min().copied().unwrap_or(0);
        writeln!(out, "plans of {} shapes (H, SINK), at least {fewest} rows each", self.seen.shapes.len())?;
        let losses = self.seen.losses.iter().map(|(loss, count)| match loss {
            None => format!(" none:{count}"),
            Some(loss) => format!(" {loss}:{count}"),
        });
        writeln!(out, "planned rows, LOSS:rows{}", losses.collect::<String>())?;
        let [planned, refused] = self.twins;
        let texts = self.twin_texts;
        writeln!(out, "rows held against their twin: {planned} planned, {refused} refused; inputs: {texts}")?;
        writeln!(out, "{}", self.lines)?;
        write!(
            out,
            "rows {}, planned {}, calls {}, buffers {} (too short: {}), texts {}, bytes compared {}: no difference",
            self.rows,
            self.planned(),
            self.calls,
            self.buffers,
            self.too_short,
            self.texts,
            self.bytes
        )
    }
}
