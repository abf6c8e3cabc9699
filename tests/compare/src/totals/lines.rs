//! What a run has compared of the lines that give the reason of a refusal.

use reference::Phrase;
use std::collections::BTreeMap;
use std::fmt;

/// Counts of lines.
#[derive(Default)]
pub struct Lines {
    /// Rows and refusals whose line was compared, by the phrase of the line.
    pub phrases: BTreeMap<Phrase, u64>,
    /// Planned rows whose line was compared.
    pub planned: u64,
    /// Buffers that were lent for a line.
    pub buffers: u64,
    /// Lines that were read.
    pub read: u64,
    /// Damaged lines that read as the refusal whose line they were.
    pub same: u64,
    /// Damaged lines that read as another refusal.
    pub other: u64,
    /// Damaged lines that were a reason and are none any more.
    pub none: u64,
}

impl Lines {
    /// Counts a line that was compared: one with this phrase, or that of a planned row.
    pub fn note(&mut self, phrase: Option<Phrase>) {
        match phrase {
            Some(phrase) => *self.phrases.entry(phrase).or_default() += 1,
            None => self.planned += 1,
        }
    }

    /// Counts a damaged line, with number and place that were read before and after the damage. What was no reason
    /// before is not counted.
    pub fn note_damaged(&mut self, before: Option<(u32, u32)>, after: Option<(u32, u32)>) {
        match (before, after) {
            (None, _) => (),
            (Some(_), None) => self.none += 1,
            _ if before == after => self.same += 1,
            _ => self.other += 1,
        }
    }

    /// Lines and damages that can be reached and were not.
    pub fn missing(&self) -> Vec<String> {
        let phrases = Phrase::OF_ROWS.into_iter().filter(|phrase| !self.phrases.contains_key(phrase));
        let phrases = phrases.map(|phrase| format!("line \"{}\"", phrase.words()));
        let counts = [
            (self.planned, "line of a planned row"),
            (self.same, "damaged line that reads as before"),
            (self.other, "damaged line that reads as another refusal"),
            (self.none, "damaged line that is no reason"),
        ];
        let counts = counts.into_iter().filter(|(count, _)| *count == 0).map(|(_, name)| name.to_string());
        phrases.chain(counts).collect()
    }
}

/// The lines by number, once for each phrase in the order of the phrases, and what was read.
impl fmt::Display for Lines {
    fn fmt(&self, out: &mut fmt::Formatter) -> fmt::Result {
        write!(out, "lines compared, number:lines 0:{}", self.planned)?;
        for (phrase, count) in &self.phrases {
            write!(out, " {}:{count}", phrase.number())?;
        }
        let Lines { buffers, read, same, other, none, .. } = self;
        write!(out, "\nbuffers for lines {buffers}, lines read {read}, of damaged ones ")?;
        write!(out, "{same} read as before, {other} as another refusal, {none} as no reason")
    }
}

#[cfg(test)]
mod tests {
    use super::*;

    /// A run that has seen everything but one thing says what is missing.
    #[test]
    fn what_is_missing_is_named() {
        assert_eq!(Lines::default().missing().len(), Phrase::OF_ROWS.len() + 4);
        let mut lines = Lines { planned: 1, ..Lines::default() };
        Phrase::OF_ROWS.into_iter().for_each(|phrase| lines.note(Some(phrase)));
        lines.note_damaged(Some((2, 1)), Some((2, 1)));
        lines.note_damaged(Some((2, 1)), Some((2, 3)));
        lines.note_damaged(None, None);
        assert_eq!(lines.missing(), ["damaged line that is no reason"]);
        lines.note_damaged(Some((2, 1)), None);
        assert_eq!(lines.missing(), Vec::<String>::new());
        lines.phrases.remove(&Phrase::SinkTooDeep);
        assert_eq!(lines.missing().len(), 1);
        assert!(lines.missing()[0].contains("which may not be above H"));
    }

    #[test]
    fn counts_are_shown() {
        let mut lines = Lines { planned: 3, buffers: 4, read: 5, same: 6, other: 7, none: 8, ..Lines::default() };
        lines.note(Some(Phrase::TextAfter));
        lines.note(Some(Phrase::Value));
        lines.note(Some(Phrase::Value));
        let shown = "lines compared, number:lines 0:3 2:2 2:1\n\
                     buffers for lines 4, lines read 5, of damaged ones \
                     6 read as before, 7 as another refusal, 8 as no reason";
        assert_eq!(lines.to_string(), shown);
    }
}
