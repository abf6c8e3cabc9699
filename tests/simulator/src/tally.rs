//! The tally of all runs, kept alike for rows and for surveyed trees: how many there were, how many tries
//! failed in them, how close they came to the right figures, and how the wrong ones were found out.

use std::collections::BTreeMap;
use std::fmt::{Debug, Display};

use crate::failures::Tries;
use crate::hold::Reach;
use crate::run::Outcome;

/// What is kept of the runs that broke a wrong version. It is shown as the rows or trees that they were
/// of, the claims that they broke, and lines on some of them.
pub trait Broken: Default + Display {
    type Version: Copy + PartialEq + Debug + 'static;
    const WRONG: &'static [Self::Version];
    /// The row or the tree of a run.
    type Of;
    /// Takes a run with one reach at least that is over.
    fn take(&mut self, of: &Self::Of, reaches: &[Reach]);
}

/// How one wrong version fared.
struct Fared<B: Broken> {
    version: B::Version,
    /// Runs that broke a claim.
    runs: u64,
    broken: B,
}

/// The tally of all runs, with the closest ones, which are shown as lines.
pub struct Tally<C, B: Broken> {
    pub runs: u64,
    frames: u64,
    /// Runs in which frames came to the sink, by LOSS, with the tries of all of them.
    losses: BTreeMap<u64, (u64, Tries)>,
    pub(crate) closest: C,
    wrong: Vec<Fared<B>>,
}

impl<C: Default, B: Broken> Default for Tally<C, B> {
    /// No runs yet.
    fn default() -> Tally<C, B> {
        let fared = |version: &B::Version| Fared { version: *version, runs: 0, broken: B::default() };
        let wrong = B::WRONG.iter().map(fared).collect();
        Tally { runs: 0, frames: 0, losses: BTreeMap::new(), closest: C::default(), wrong }
    }
}

impl<C: Display, B: Broken> Tally<C, B> {
    /// Counts a run with this LOSS that kept the right figures.
    pub(crate) fn count(&mut self, loss: u64, outcome: &Outcome) {
        self.runs += 1;
        self.frames += outcome.frames.len() as u64;
        if !outcome.arrivals.is_empty() {
            let (runs, tries) = self.losses.entry(loss).or_default();
            *runs += 1;
            tries.failed += outcome.tries.failed;
            tries.worst += outcome.tries.worst;
        }
    }

    /// The LOSS from 0 to 7 with which no run was made, or none in which all the tries of a frame failed
    /// that may.
    pub fn untried(&self) -> Vec<u64> {
        let tried = |loss: &u64| self.losses.get(loss).is_some_and(|(_, tries)| *loss == 0 || tries.worst > 0);
        (0..=7).filter(|loss| !tried(loss)).collect()
    }

    /// Takes what a run reached of the figures of a wrong version.
    pub(crate) fn take_wrong(&mut self, version: B::Version, of: &B::Of, reaches: &[Reach]) {
        if !reaches.iter().any(Reach::is_over) {
            return;
        }
        for fared in self.wrong.iter_mut().filter(|fared| fared.version == version) {
            fared.runs += 1;
            fared.broken.take(of, reaches);
        }
    }

    /// The wrong versions that no run found out.
    pub fn survivors(&self) -> Vec<B::Version> {
        self.wrong.iter().filter(|fared| fared.runs == 0).map(|fared| fared.version).collect()
    }

    /// The report.
    pub fn text(&self) -> String {
        let Tally { runs, frames, losses, closest, wrong } = self;
        let mut text = format!("{runs} runs, {frames} frames, right figures kept\n");
        for (loss, (runs, Tries { failed, worst, .. })) in losses {
            text += &format!("  LOSS {loss}: {runs} runs, {failed} tries failed, in {worst} exchanges all that may\n");
        }
        text += &format!("closest to the printed figures (reached / printed)\n{closest}wrong figures\n");
        for Fared { version, runs, broken } in wrong {
            text += &format!("  {version:?}: broken by {runs} runs on {broken}");
        }
        text
    }
}
