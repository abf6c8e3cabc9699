//! How many tries of a frame fail on a link before one succeeds (request E5 of document 02): at most LOSS of them in a
//! row, "the frame or its acknowledgement lost". How many it is, is the attacker's.

use crate::chance::mix;

/// A rule that says it for every frame and node.
#[derive(Clone, Copy, Debug)]
pub enum Failures {
    /// None.
    Never,
    /// All that may.
    Always,
    /// Drawn for each frame and node.
    Drawn(u64),
}

impl Failures {
    /// The tries of a frame that fail at `node`, where up to `loss` may.
    pub fn count(&self, frame: usize, node: usize, loss: u64) -> u64 {
        match *self {
            Failures::Never => 0,
            Failures::Always => loss,
            Failures::Drawn(seed) => mix(seed ^ mix(!(frame as u64)) ^ mix(node as u64)) % (loss + 1),
        }
    }
}

/// The tries of all exchanges of a run.
#[derive(Clone, Copy, Debug, Default, PartialEq, Eq)]
pub struct Tries {
    /// Tries that failed.
    pub failed: u64,
    /// Exchanges in which all the tries failed that may, one at least.
    pub worst: u64,
    /// Exchanges that were over before the last try was. There must be none.
    pub late: u64,
}

#[cfg(test)]
mod tests {
    use super::*;

    /// Drawn numbers are of all sizes, and never above LOSS.
    #[test]
    fn drawn_numbers() {
        for loss in 0..=7 {
            let mut counts = vec![0; loss as usize + 1];
            (0..800).for_each(|frame| counts[Failures::Drawn(9).count(frame, 3, loss) as usize] += 1);
            assert!(counts.iter().all(|count| *count > 50), "{counts:?}");
        }
        assert_eq!([0, 5].map(|loss| Failures::Always.count(1, 2, loss)), [0, 5]);
        assert_eq!([0, 5].map(|loss| Failures::Never.count(1, 2, loss)), [0, 0]);
    }
}
