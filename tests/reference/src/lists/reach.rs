//! What lists have come to: refusals at places, and sorts of plans.

use crate::{Beside, Kind, Phrase, TreeOutcome, TreePlan, MOST_NODES};
use std::collections::BTreeMap;
use std::fmt;

/// How often each refusal, by phrase and place, and each sort of plan has occurred.
#[derive(Default)]
pub struct TreeSeen {
    pub refusals: BTreeMap<(Phrase, u32), u64>,
    /// Plans by their number of nodes.
    pub sizes: BTreeMap<usize, u64>,
    /// Plans with some traffic by their LOSS.
    pub losses: BTreeMap<u32, u64>,
    sorts: BTreeMap<&'static str, u64>,
}

/// A sort of plans, by name.
type Sort = (&'static str, fn(&TreePlan) -> bool);

/// The sorts of plans that must occur.
const SORTS: [Sort; 8] = [
    ("its sink at the root", |plan| plan.lines[0].line.kind == Kind::Sink),
    ("its sink at depth 1", |plan| sink_depth(plan) == 1),
    ("its sink below depth 10", |plan| sink_depth(plan) > 10),
    ("a silent end node", |plan| has_silent(plan, Kind::EndNode)),
    ("a silent upward link of a router", |plan| has_silent(plan, Kind::Up)),
    ("a silent downward link", |plan| has_silent(plan, Kind::Down)),
    ("no sensor at all", |plan| plan.lines.iter().all(|node| node.line.rate == 0)),
    ("a route of more than 100 links", |plan| plan.lines.iter().any(|node| node.line.depth > 100 && node.route > 0)),
];

/// The largest LOSS.
const MOST_LOSS: u32 = 7;
/// Lines at which number 10 must have been answered, so many of 255.
const ENOUGH_LINES: usize = 200;

fn sink_depth(plan: &TreePlan) -> usize {
    plan.lines.iter().find(|node| node.line.kind == Kind::Sink).map_or(0, |node| node.line.depth)
}

fn has_silent(plan: &TreePlan, kind: Kind) -> bool {
    plan.lines.iter().any(|node| node.line.kind == kind && node.line.rate == 0)
}

impl TreeSeen {
    /// Counts what came of a list with this beside it.
    pub fn note(&mut self, beside: &Beside, outcome: &TreeOutcome) {
        match outcome {
            Err(refusal) => *self.refusals.entry((refusal.phrase, refusal.place)).or_default() += 1,
            Ok(plan) => {
                *self.sizes.entry(plan.lines.len()).or_default() += 1;
                if plan.lines.iter().any(|node| node.line.frames > 0) {
                    *self.losses.entry(beside.loss).or_default() += 1;
                }
                for (name, _) in SORTS.iter().filter(|(_, is_of)| is_of(plan)) {
                    *self.sorts.entry(name).or_default() += 1;
                }
            }
        }
    }

    pub fn planned(&self) -> u64 {
        self.sizes.values().sum()
    }

    pub fn refused(&self) -> u64 {
        self.refusals.values().sum()
    }

    /// What lists can come to and has not occurred.
    pub fn missing(&self) -> Vec<String> {
        let refusals = expected_refusals().into_iter().filter(|refusal| !self.refusals.contains_key(refusal));
        let refusals = refusals.map(|(phrase, place)| format!("refusal {} at place {place}", phrase.number()));
        let routers = [Phrase::RouterReservations, Phrase::RouterSlots].into_iter();
        let routers = routers.filter(|of| !self.refusals.keys().any(|(phrase, place)| phrase == of && *place > 100));
        let routers = routers.map(|phrase| format!("refusal {} above router 100", phrase.number()));
        let lines = self.refusals.keys().filter(|(phrase, _)| *phrase == Phrase::NodeLine).count();
        let lines = (lines < ENOUGH_LINES).then(|| format!("refusal 10 at {ENOUGH_LINES} lines"));
        let sorts = SORTS.iter().filter(|(name, _)| !self.sorts.contains_key(name));
        let sizes = [1, 2, MOST_NODES].into_iter().filter(|size| !self.sizes.contains_key(size));
        let losses = (0..=MOST_LOSS).filter(|loss| !self.losses.contains_key(loss));
        refusals
            .chain(routers)
            .chain(lines)
            .chain(sorts.map(|(name, _)| format!("plan with {name}")))
            .chain(sizes.map(|size| format!("plan of {size} nodes")))
            .chain(losses.map(|loss| format!("plan with LOSS {loss}")))
            .collect()
    }
}

/// Each place that requests E3 and E5 name; of lines and routers the first ones, and the last lines.
fn expected_refusals() -> Vec<(Phrase, u32)> {
    let at = |phrase, places: &[u32]| places.iter().map(|&place| (phrase, place)).collect::<Vec<_>>();
    [
        at(Phrase::ListNames, &[0]),
        at(Phrase::NodeLine, &[1, 2, 3, 4, 254, 255]),
        at(Phrase::NoSink, &[0]),
        at(Phrase::Range, &[1, 2, 10, 11, 12, 13]),
        at(Phrase::OrdersAtOdds, &[2]),
        at(Phrase::FrameTooLong, &[11]),
        at(Phrase::LossWithoutAck, &[13]),
        at(Phrase::Routers, &[0]),
        at(Phrase::RouterReservations, &[1, 2, 3]),
        at(Phrase::RouterSlots, &[1, 2, 3]),
    ]
    .concat()
}

/// The refusals by number, and the plans.
impl fmt::Display for TreeSeen {
    fn fmt(&self, out: &mut fmt::Formatter) -> fmt::Result {
        let mut numbers: BTreeMap<u32, (u64, u64)> = BTreeMap::new();
        for ((phrase, _), count) in &self.refusals {
            let (places, lists) = numbers.entry(phrase.number()).or_default();
            (*places, *lists) = (*places + 1, *lists + count);
        }
        for (number, (places, lists)) in numbers {
            writeln!(out, "lists refused with {number}: {lists}, at {places} places")?;
        }
        write!(out, "lists planned {}, of {} sizes; LOSS:lists with traffic", self.planned(), self.sizes.len())?;
        self.losses.iter().try_for_each(|(loss, count)| write!(out, " {loss}:{count}"))?;
        self.sorts.iter().try_for_each(|(name, count)| write!(out, "; with {name} {count}"))
    }
}

#[cfg(test)]
mod tests {
    use super::*;

    #[test]
    fn what_is_missing_is_named() {
        let missing = TreeSeen::default().missing();
        assert_eq!(missing.len(), expected_refusals().len() + 2 + 1 + SORTS.len() + 3 + 8);
        assert!(missing.contains(&"refusal 10 at place 255".to_string()));
        assert!(missing.contains(&"plan of 254 nodes".to_string()));
    }
}
