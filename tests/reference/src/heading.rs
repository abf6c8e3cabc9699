//! The two name lines, and condition 1. Request E5 of document 02: "A 13th column LOSS"; "a name line of 12 names still
//! stands for LOSS 0".

use crate::{Phrase, Refusal};

/// The line of 12 names, without its LF.
pub const NAMES: &str = "BO SO H NR NE OWN SINK BURST RATE HEAD DATA ACK";

/// The line of 13 names, without its LF.
pub const LOSS_NAMES: &str = "BO SO H NR NE OWN SINK BURST RATE HEAD DATA ACK LOSS";

/// Which name line rows stand under.
#[derive(Clone, Copy, Debug, PartialEq, Eq, PartialOrd, Ord)]
pub enum Heading {
    /// 12 names. LOSS is 0.
    WithoutLoss,
    /// 13 names.
    WithLoss,
}

impl Heading {
    pub const BOTH: [Heading; 2] = [Heading::WithoutLoss, Heading::WithLoss];

    /// The name line, without its LF.
    pub fn names(self) -> &'static str {
        match self {
            Heading::WithoutLoss => NAMES,
            Heading::WithLoss => LOSS_NAMES,
        }
    }

    /// The values that a row has under it.
    pub fn columns(self) -> usize {
        match self {
            Heading::WithoutLoss => 12,
            Heading::WithLoss => 13,
        }
    }
}

/// Condition 1: which of the two name lines it is.
pub fn read_names(names: &[u8]) -> Result<Heading, Refusal> {
    let heading = Heading::BOTH.into_iter().find(|heading| heading.names().as_bytes() == names);
    heading.ok_or_else(|| Refusal::without_values(Phrase::Names, 0))
}

#[cfg(test)]
mod tests {
    use super::*;

    fn read(names: &str) -> Option<Heading> {
        read_names(names.as_bytes()).ok()
    }

    #[test]
    fn columns_are_counted() {
        for heading in Heading::BOTH {
            assert_eq!(heading.names().split(' ').count(), heading.columns());
            assert_eq!(read(heading.names()), Some(heading));
        }
        assert_eq!(LOSS_NAMES.strip_prefix(NAMES), Some(" LOSS"));
    }

    #[test]
    fn other_name_lines() {
        for more in [" ", "  LOSS", " loss", " LOS", " LOSSES", " LOSS ", " LOSS LOSS", " LOSS\r", " X", "LOSS"] {
            assert_eq!(read(&format!("{NAMES}{more}")), None, "{more:?}");
        }
        assert_eq!((read(""), read("LOSS"), read(&format!("LOSS {NAMES}"))), (None, None, None));
    }
}
