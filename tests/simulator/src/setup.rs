//! All that a run is fed besides the row and the printed figures (document 01, "The run"): a tree, an
//! offset for each window, a list of readings, a rule for ties, and one for tries that fail.

use crate::bucket;
use crate::failures::Failures;
use crate::row::Row;
use crate::ties::Ties;
use crate::tree::{Tree, Ways};

/// One reading: in this symbol this sensor makes so many frames.
#[derive(Clone, Copy, Debug, PartialEq, Eq, PartialOrd, Ord)]
pub struct Reading {
    pub symbol: u64,
    pub sensor: usize,
    pub count: u64,
}

/// What a run is fed. Node `i` has `offsets[i]`; the sink's offset is not looked at.
#[derive(Clone, Debug)]
pub struct Setup<T: Ways = Tree> {
    pub tree: T,
    pub offsets: Vec<u64>,
    pub readings: Vec<Reading>,
    pub ties: Ties,
    pub failures: Failures,
}

impl Setup {
    /// Whether the run counts: the tree lies within the row, and each reading is at a sensor of the
    /// tree and all readings keep their sensors' token buckets. Offsets are checked with the links.
    pub fn check(&self, row: &Row) -> Result<(), String> {
        self.tree.check(row)?;
        for reading in &self.readings {
            if reading.sensor >= self.tree.nodes.len() || !self.tree.senses(row, reading.sensor) {
                return Err(format!("node {} is no sensor", reading.sensor));
            }
        }
        bucket::check(row, &self.readings)
    }
}

/// One frame: the symbol in which it is made, and where.
#[derive(Clone, Copy, Debug, PartialEq, Eq)]
pub struct Frame {
    pub made: u64,
    pub sensor: usize,
}

/// The frames that the readings make, in the order of symbol and sensor. The list of readings may be
/// in any order, and counts for the same symbol and sensor add up.
pub fn frames(readings: &[Reading]) -> Vec<Frame> {
    let mut sorted = readings.to_vec();
    sorted.sort_unstable();
    let repeat = |reading: &Reading| {
        let frame = Frame { made: reading.symbol, sensor: reading.sensor };
        std::iter::repeat_n(frame, reading.count as usize)
    };
    sorted.iter().flat_map(repeat).collect()
}
