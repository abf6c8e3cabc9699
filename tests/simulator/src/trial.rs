//! One row with the figures that are held against its runs, and one run of it.

use crate::figures::{self, Answer, Version, WRONG};
use crate::hold::{self, Promises, Reach};
use crate::link;
use crate::row::Row;
use crate::run::{self, Outcome};
use crate::setup::Setup;
use crate::tree::Ways;

/// A planned row: the figures that must hold, and the wrong ones that must not.
pub struct Case {
    pub row: Row,
    pub right: Promises,
    pub wrong: Vec<(Version, Promises)>,
}

impl Case {
    /// A case for a row and the answer that is held for it; none if the row is refused.
    pub fn of(row: Row, answer: &Answer) -> Result<Option<Case>, String> {
        let Answer::Plan(lines) = answer else { return Ok(None) };
        let mut wrong = Vec::new();
        for version in WRONG {
            if let Answer::Plan(lines) = figures::answer(&row, version) {
                wrong.push((version, Promises::of(&lines)?));
            }
        }
        Ok(Some(Case { row, right: Promises::of(lines)?, wrong }))
    }

    /// Runs a setup. It must keep all that document 01 asks of what a run is fed; then the run goes on
    /// until one symbol after the printed delay of the last reading, so that a frame that is not at
    /// the sink by then breaks the printed delay. The tries of each exchange must be over when it is.
    pub fn run(&self, setup: &Setup) -> Result<Outcome, String> {
        setup.check(&self.row)?;
        let links = link::links(&self.row, &self.right, &setup.tree, &setup.offsets)?;
        let last_reading = setup.readings.iter().map(|reading| reading.symbol).max().unwrap_or(0);
        let last = last_reading.checked_add(self.right.delay).and_then(|sum| sum.checked_add(1));
        let outcome = run::run(&links, setup, last.ok_or("a delay too large")?);
        outcome.check_tries()?;
        Ok(outcome)
    }

    /// Holds the right figures against a run.
    pub fn hold(&self, setup: &Setup, outcome: &Outcome) -> Result<[Reach; 5], String> {
        hold::hold(&self.row, &self.right, &setup.tree, outcome)
    }
}

/// All that is needed to make a run again: row, nodes with their links and offsets, ties, failed tries,
/// readings.
pub fn describe(case: &Case, setup: &Setup) -> String {
    let mut text = format!("row {}\ntree, sink is node {}\n", case.row, setup.tree.sink);
    for (number, (node, way)) in setup.tree.nodes.iter().zip(setup.tree.ways()).enumerate() {
        text += &format!("  node {number}: {:?}, depth {}", node.kind, node.depth);
        if let Some(parent) = node.parent {
            text += &format!(", hangs on {parent}");
        }
        if let Some(way) = way {
            let (kind, depth) = way.line;
            text += &format!(", line {kind} {depth} to {}, offset {}", way.next, setup.offsets[number]);
        }
        text.push('\n');
    }
    text += &format!("ties {:?}, failed tries {:?}\n", setup.ties, setup.failures);
    text += "readings, as symbol, sensor, count\n";
    for reading in &setup.readings {
        text += &format!("  {} {} {}\n", reading.symbol, reading.sensor, reading.count);
    }
    text
}
