//! Runs that try to break the plans of surveyed trees: directed ones, made alike for every tree, and
//! drawn ones.

use super::case::{Case, CLAIMS};
use super::survey::Survey;
use super::tally::Tally;
use crate::aim::{self, Aim};
use crate::attack::{self, Method, ON_EVERY_TREE, ON_ONE_TREE};
use crate::chance::Chance;
use crate::change;
use crate::hold::Reach;
use crate::run::Outcome;
use crate::setup::Setup;

/// About the most frames of a directed run, and of a drawn one.
const FRAMES: u64 = 6_000;
const FRAMES_DRAWN: u64 = 1_500;

/// The setups of one tree that came closest with each claim, from which others are made.
type Best = [Option<(f64, Setup<Survey>)>; 7];

/// All runs so far.
pub struct Attack {
    cases: Vec<Case>,
    best: Vec<Best>,
    pub tally: Tally,
    chance: Chance,
}

impl Attack {
    pub fn new(cases: Vec<Case>, chance: Chance) -> Attack {
        let best = cases.iter().map(|_| Best::default()).collect();
        Attack { cases, best, tally: Tally::default(), chance }
    }

    /// The directed runs of all trees, then drawn ones until there are `runs` runs.
    pub fn all(&mut self, runs: u64) -> Result<(), String> {
        for case in 0..self.cases.len() {
            self.directed(case)?;
        }
        while self.tally.runs < runs && !self.cases.is_empty() {
            let case = self.chance.index(self.cases.len());
            self.drawn(case)?;
        }
        Ok(())
    }

    /// The directed runs of a tree.
    fn directed(&mut self, case: usize) -> Result<(), String> {
        for (place, method) in ON_EVERY_TREE.iter().chain(&ON_ONE_TREE).enumerate() {
            let aim = aimed(&self.cases[case], *method, &mut self.chance)?;
            let setup = setup(&self.cases[case], aim, *method, FRAMES, &mut self.chance);
            let outcome = self.run(case, &setup)?;
            let seed = self.chance.draw();
            if let Some(setup) = attack::watched(&setup, &outcome, seed).filter(|_| place == 0) {
                self.run(case, &setup)?;
            }
        }
        Ok(())
    }

    /// A drawn run of a tree: a new one, or a small change of one that came close.
    fn drawn(&mut self, case: usize) -> Result<(), String> {
        let claim = self.chance.index(CLAIMS.len());
        let close = if self.chance.once_in(3) { &None } else { &self.best[case][claim] };
        let Case { survey, right, .. } = &self.cases[case];
        let setup = match close {
            Some((_, setup)) => change::changed(&survey.row(), &right.links, setup, &mut self.chance)?,
            None => drawn_setup(&self.cases[case], &mut self.chance)?,
        };
        self.run(case, &setup).map(|_| ())
    }

    /// Runs a setup, holds it and takes it into the tally; a violation of the right figures is told with
    /// all that is needed to make the run again.
    fn run(&mut self, number: usize, setup: &Setup<Survey>) -> Result<Outcome, String> {
        let case = &self.cases[number];
        let outcome = case.run(setup)?;
        let reaches = case.hold(&case.right, &outcome)?;
        let over: Vec<String> = reaches.iter().filter(|reach| reach.is_over()).map(Reach::to_string).collect();
        if !over.is_empty() {
            return Err(format!("VIOLATION\n{}\n{}", over.join("\n"), case.describe(setup)));
        }
        self.tally.take(number, case, &outcome, &reaches)?;
        for (best, reach) in self.best[number].iter_mut().zip(&reaches) {
            if reach.reached > 0 && best.as_ref().is_none_or(|(share, _)| reach.share() >= *share) {
                *best = Some((reach.share(), setup.clone()));
            }
        }
        Ok(outcome)
    }
}

fn aimed(case: &Case, method: Method, chance: &mut Chance) -> Result<Aim, String> {
    aim::aim(&case.survey.row(), &case.right.links, &case.survey, method.windows, chance)
}

/// A drawn setup: windows, patterns, ties and failed tries of all kinds, often with all sensors in the
/// same symbol or some of them silent.
pub fn drawn_setup(case: &Case, chance: &mut Chance) -> Result<Setup<Survey>, String> {
    let method = attack::drawn_method(chance);
    let mut aim = aimed(case, method, chance)?;
    attack::sometimes_together(&mut aim, chance);
    let mut setup = setup(case, aim, method, FRAMES_DRAWN, chance);
    attack::sometimes_silent(&mut setup, chance);
    Ok(setup)
}

/// Offsets, readings of all sensors, each within its own bucket, ties and failed tries.
fn setup(case: &Case, aim: Aim, method: Method, frames: u64, chance: &mut Chance) -> Setup<Survey> {
    let survey = &case.survey;
    let buckets: Vec<_> = survey.sensors().into_iter().map(|sensor| (sensor, survey.bucket(sensor))).collect();
    let readings = attack::all_readings(&buckets, &aim, method, frames, chance);
    Setup { tree: survey.clone(), offsets: aim.offsets, readings, ties: method.ties, failures: method.failures }
}
