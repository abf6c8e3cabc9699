//! What came of all runs of rows: how close they came to the right figures, and how the wrong ones were
//! found out.

use std::collections::BTreeSet;
use std::fmt;

use crate::figures::{Version, WRONG};
use crate::hold::{self, Claim, Reach, CLAIMS};
use crate::row::Row;
use crate::run::Outcome;
use crate::setup::Setup;
use crate::tally;
use crate::trial::Case;

/// A run of a row and what it reached of a claim.
struct Run {
    reach: Reach,
    row: Row,
}

/// The sorts of rows in the table of close runs, by H.
const SORTS: [(&str, u64, u64); 4] = [("H 0", 0, 0), ("H 1", 1, 1), ("H 2 to 3", 2, 3), ("H 4 to 12", 4, 12)];

/// The closest run of each claim among rows of each sort.
#[derive(Default)]
pub struct Closest([[Option<Run>; 5]; SORTS.len()]);

/// How one wrong version fared.
#[derive(Default)]
pub struct Broken {
    rows: BTreeSet<String>,
    /// Runs that broke each claim.
    claims: [u64; 5],
    /// The run that broke each claim by the largest part of the printed figure.
    worst: [Option<Run>; 5],
}

/// The tally of all runs.
pub type Tally = tally::Tally<Closest, Broken>;

fn place(claim: Claim) -> usize {
    CLAIMS.iter().position(|other| *other == claim).unwrap_or(0)
}

/// Keeps the reach with the larger share.
fn keep(best: &mut Option<Run>, reach: &Reach, row: &Row) {
    if best.as_ref().is_none_or(|best| reach.share() > best.reach.share()) {
        *best = Some(Run { reach: reach.clone(), row: *row });
    }
}

impl Tally {
    /// Takes a run that kept the right figures.
    pub fn take(&mut self, case: &Case, setup: &Setup, outcome: &Outcome, reaches: &[Reach; 5]) -> Result<(), String> {
        self.count(case.row.loss, outcome);
        self.closest.take(&case.row, reaches);
        for (version, promises) in &case.wrong {
            let reaches = hold::hold(&case.row, promises, &setup.tree, outcome)?;
            self.take_wrong(*version, &case.row, &reaches);
        }
        Ok(())
    }
}

impl Closest {
    fn take(&mut self, row: &Row, reaches: &[Reach; 5]) {
        let sort = SORTS.iter().position(|(_, low, high)| (*low..=*high).contains(&row.h)).unwrap_or(0);
        for reach in reaches {
            keep(&mut self.0[sort][place(reach.claim)], reach, row);
        }
    }
}

impl fmt::Display for Closest {
    fn fmt(&self, out: &mut fmt::Formatter) -> fmt::Result {
        for (runs, (name, _, _)) in self.0.iter().zip(SORTS) {
            for Run { reach, row } in runs.iter().flatten().filter(|run| run.reach.reached > 0) {
                writeln!(out, "  {name}: {:.6} {reach}; row {row}", reach.share())?;
            }
        }
        Ok(())
    }
}

impl tally::Broken for Broken {
    type Version = Version;
    const WRONG: &'static [Version] = &WRONG;
    type Of = Row;

    fn take(&mut self, row: &Row, reaches: &[Reach]) {
        self.rows.insert(row.to_string());
        for reach in reaches.iter().filter(|reach| reach.is_over()) {
            let place = place(reach.claim);
            self.claims[place] += 1;
            keep(&mut self.worst[place], reach, row);
        }
    }
}

impl fmt::Display for Broken {
    fn fmt(&self, out: &mut fmt::Formatter) -> fmt::Result {
        let [ends, up, down, delay, stretch] = self.claims;
        write!(out, "{} rows ", self.rows.len())?;
        writeln!(out, "(queue E {ends}, U {up}, D {down}, delay {delay}, stretch {stretch})")?;
        for Run { reach, row } in self.worst.iter().flatten() {
            writeln!(out, "    {reach}; row {row}")?;
        }
        Ok(())
    }
}
