//! What came of all runs of surveyed trees: how close they came to the right figures, and how the wrong
//! ones were found out.

use super::case::{Case, CLAIMS};
use super::figures::{Version, WRONG};
use super::survey::Survey;
use crate::hold::Reach;
use crate::run::Outcome;
use crate::tally;
use std::collections::BTreeSet;
use std::fmt;

/// The closest reach of each claim, and its tree.
#[derive(Default)]
pub struct Closest([Option<(Reach, String)>; 7]);

/// How one wrong version fared.
#[derive(Default)]
pub struct Broken {
    trees: BTreeSet<usize>,
    /// Runs that broke each claim.
    claims: [u64; 7],
    /// The first reach that was over.
    first: Option<Reach>,
}

/// The tally of all runs.
pub type Tally = tally::Tally<Closest, Broken>;

impl Tally {
    /// Takes a run of the tree with this number that kept the right figures.
    pub fn take(&mut self, number: usize, case: &Case, outcome: &Outcome, reaches: &[Reach; 7]) -> Result<(), String> {
        self.count(case.survey.loss, outcome);
        self.closest.take(&case.survey, reaches);
        for (version, promises) in &case.wrong {
            self.take_wrong(*version, &number, &case.hold(promises, outcome)?);
        }
        Ok(())
    }
}

impl Closest {
    fn take(&mut self, survey: &Survey, reaches: &[Reach; 7]) {
        for (closest, reach) in self.0.iter_mut().zip(reaches) {
            if closest.as_ref().is_none_or(|(best, _)| reach.share() > best.share()) {
                let tree = format!("{} nodes, settings {}", survey.nodes.len(), survey.settings());
                *closest = Some((reach.clone(), tree));
            }
        }
    }
}

impl fmt::Display for Closest {
    fn fmt(&self, out: &mut fmt::Formatter) -> fmt::Result {
        for (reach, tree) in self.0.iter().flatten().filter(|(reach, _)| reach.reached > 0) {
            writeln!(out, "  {:.6} {reach}; {tree}", reach.share())?;
        }
        Ok(())
    }
}

impl tally::Broken for Broken {
    type Version = Version;
    const WRONG: &'static [Version] = &WRONG;
    /// The tree's number.
    type Of = usize;

    fn take(&mut self, tree: &usize, reaches: &[Reach]) {
        self.trees.insert(*tree);
        for (runs, reach) in self.claims.iter_mut().zip(reaches).filter(|(_, reach)| reach.is_over()) {
            *runs += 1;
            self.first.get_or_insert_with(|| reach.clone());
        }
    }
}

impl fmt::Display for Broken {
    fn fmt(&self, out: &mut fmt::Formatter) -> fmt::Result {
        let claims = CLAIMS.iter().zip(self.claims).filter(|(_, runs)| *runs > 0);
        let claims: Vec<String> = claims.map(|(claim, runs)| format!("{claim:?} {runs}")).collect();
        writeln!(out, "{} trees ({})", self.trees.len(), claims.join(", "))?;
        self.first.iter().try_for_each(|reach| writeln!(out, "    {reach}"))
    }
}
