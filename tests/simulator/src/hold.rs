//! What is held against a run (document 01, "The run"): queues, times on the way, stretches at the
//! sink.

use std::collections::BTreeMap;
use std::fmt;

use crate::air;
use crate::figures::Line;
use crate::row::Row;
use crate::run::Outcome;
use crate::stretch;
use crate::tree::Ways;

/// What the printed plan says of one sort of link.
#[derive(Clone, Copy, Debug, PartialEq, Eq)]
pub struct Promise {
    pub slots: u64,
    pub buffer: u64,
}

/// All that a run takes from a printed plan: SLOTS and BUFFER of the links' lines, and DELAY, BURST
/// and RATE of line S.
#[derive(Clone, Debug)]
pub struct Promises {
    links: BTreeMap<(char, u64), Promise>,
    pub delay: u64,
    pub burst: i128,
    pub rate: u64,
}

impl Promises {
    /// Takes the figures from a plan's lines. A plan without a line S or with the same line twice is
    /// no plan.
    pub fn of(lines: &[Line]) -> Result<Promises, String> {
        let (sink, rest) = lines.split_last().ok_or("a plan without lines")?;
        if sink.kind != 'S' {
            return Err("a plan without its line S".into());
        }
        let mut links = BTreeMap::new();
        for line in rest {
            let promise = Promise { slots: figure(line.slots, 20)?, buffer: figure(line.buffer, 60)? };
            if links.insert((line.kind, line.depth), promise).is_some() {
                return Err(format!("line {} {} twice", line.kind, line.depth));
            }
        }
        let (delay, rate) = (figure(sink.delay, 60)?, figure(sink.rate, 60)?);
        let burst = i128::try_from(sink.burst).map_err(|_| "a burst too large")?;
        Ok(Promises { links, delay, burst, rate })
    }

    /// The figures of a line.
    pub fn line(&self, line: (char, u64)) -> Result<Promise, String> {
        self.links.get(&line).copied().ok_or_else(|| format!("no line {} {}", line.0, line.1))
    }
}

/// A printed figure that must be below 2^`bits`, so that no sum or product made with it is too large.
pub fn figure(value: u128, bits: u32) -> Result<u64, String> {
    u64::try_from(value).ok().filter(|value| value >> bits == 0).ok_or_else(|| format!("a figure too large: {value}"))
}

/// The sorts of claims. Queues are told apart by the kind of their line: E, U or D. The last two are
/// made of surveyed trees alone: each frame's own route, and that no frame is lost.
#[derive(Clone, Copy, Debug, PartialEq, Eq)]
pub enum Claim {
    Queue(char),
    Delay,
    Stretch,
    Route,
    Lost,
}

/// All sorts that are made of a row's trees, in the order in which they are reported.
pub const CLAIMS: [Claim; 5] = [Claim::Queue('E'), Claim::Queue('U'), Claim::Queue('D'), Claim::Delay, Claim::Stretch];

/// How far a run came with one claim: what it reached and what the plan prints.
#[derive(Clone, Debug, PartialEq, Eq)]
pub struct Reach {
    pub claim: Claim,
    /// Which queue, frame or stretch it was.
    pub place: String,
    pub reached: i128,
    pub printed: i128,
}

impl Reach {
    /// The claim is violated.
    pub fn is_over(&self) -> bool {
        self.reached > self.printed
    }

    /// The part of the printed figure that was reached.
    pub fn share(&self) -> f64 {
        if self.printed == 0 {
            return if self.is_over() { f64::INFINITY } else { 0.0 };
        }
        self.reached as f64 / self.printed as f64
    }
}

impl fmt::Display for Reach {
    fn fmt(&self, out: &mut fmt::Formatter<'_>) -> fmt::Result {
        let (claim, unit) = match self.claim {
            Claim::Queue(_) => ("queue", "frames"),
            Claim::Delay => ("delay", "symbols"),
            Claim::Stretch => ("stretch", "frame-symbols"),
            Claim::Route => ("own route", "symbols"),
            Claim::Lost => ("loss", "frames"),
        };
        write!(out, "{claim} of {}: {} {unit}, printed {}", self.place, self.reached, self.printed)?;
        if self.is_over() {
            write!(out, ", over by {}", self.reached - self.printed)?;
        }
        Ok(())
    }
}

/// Holds a run against the figures: for each claim, in the order of the list, the reach that is
/// largest in comparison with what is printed, so a claim is violated exactly if its reach is over.
pub fn hold(row: &Row, promises: &Promises, tree: &impl Ways, outcome: &Outcome) -> Result<[Reach; 5], String> {
    let [ends, up, down] = queue_reaches(promises, tree, outcome)?;
    Ok([ends, up, down, delay_reach(promises, outcome), stretch_reach(row, promises, outcome)])
}

/// Every queue in every symbol is at most BUFFER of its line. Of each kind of line the reach with the
/// largest share is kept; it is over if any is, for a violated claim has a share above 1 and a kept
/// one has not.
fn queue_reaches(promises: &Promises, tree: &impl Ways, outcome: &Outcome) -> Result<[Reach; 3], String> {
    let none = |kind| Reach { claim: Claim::Queue(kind), place: "no node".into(), reached: 0, printed: 0 };
    let mut worst = ['E', 'U', 'D'].map(none);
    for (node, way) in tree.ways().into_iter().enumerate() {
        let Some(way) = way else { continue };
        let printed = i128::from(promises.line(way.line)?.buffer);
        let reached = i128::from(outcome.queues[node]);
        let (kind, depth) = way.line;
        for worst in worst.iter_mut().filter(|worst| worst.claim == Claim::Queue(kind)) {
            let reach = Reach { claim: worst.claim, place: String::new(), reached, printed };
            if reach.share() > worst.share() {
                *worst = Reach { place: format!("{} on line {kind} {depth}", tree.name(node)), ..reach };
            }
        }
    }
    Ok(worst)
}

/// Every frame is on its way for at most DELAY of line S: d − c if it came in symbol d, otherwise
/// u − c at the end of the run's last symbol u.
fn delay_reach(promises: &Promises, outcome: &Outcome) -> Reach {
    let mut worst =
        Reach { claim: Claim::Delay, place: "no frame".into(), reached: 0, printed: i128::from(promises.delay) };
    if let Some((frame, time)) = longest(outcome) {
        worst.reached = i128::from(time);
        let state = if outcome.frames[frame].1.is_some() { "" } else { ", not at the sink yet" };
        worst.place = format!("frame {frame} made in symbol {}{state}", outcome.frames[frame].0.made);
    }
    worst
}

/// The frame with the longest time on its way, and that time. Frames that were not made by the run's
/// last symbol do not count.
pub fn longest(outcome: &Outcome) -> Option<(usize, u64)> {
    let time = |(number, (frame, came)): (usize, &(crate::setup::Frame, Option<u64>))| {
        came.unwrap_or(outcome.last).checked_sub(frame.made).map(|time| (number, time))
    };
    outcome.frames.iter().enumerate().filter_map(time).max_by_key(|(_, time)| *time)
}

/// In any t consecutive symbols the sink gets at most a frames with a × BI ≤ BURST + RATE × t: the
/// largest a × BI − RATE × t over all stretches is at most BURST.
fn stretch_reach(row: &Row, promises: &Promises, outcome: &Outcome) -> Reach {
    let events: Vec<(u64, u64)> = outcome.arrivals.iter().map(|(symbol, _)| (*symbol, 1)).collect();
    let worst = stretch::excess(&events, air::interval(row), promises.rate);
    Reach {
        claim: Claim::Stretch,
        place: worst.map_or("no frame".into(), |w| format!("{} frames in {} symbols", w.frames, w.symbols)),
        reached: worst.map_or(0, |worst| worst.over.max(0)),
        printed: promises.burst,
    }
}

#[cfg(test)]
mod tests {
    use super::*;
    use crate::failures::Tries;
    use crate::setup::Frame;
    use crate::shapes;
    use crate::tree::Tree;

    /// One end node on a root that is the sink; BI = 960. The plan is made up for these tests.
    fn plan() -> (Row, Promises, Tree) {
        let row = Row::read("0 0 0 0 1 0 0 1 1 5 13 0");
        let line = |kind, buffer, delay, burst| {
            let (depth, rate, slots, frames, latency) = (0, 1, 1, 1, 0);
            Line { kind, depth, rate, burst, slots, frames, latency, buffer, delay }
        };
        let promises = Promises::of(&[line('E', 3, 0, 0), line('S', 0, 100, 1918)]).expect("a plan");
        let tree = shapes::full(&row, 10).expect("a small tree");
        (row, promises, tree)
    }

    fn outcome(queue: u64, frames: &[(u64, Option<u64>)], last: u64) -> Outcome {
        let frames: Vec<(Frame, Option<u64>)> =
            frames.iter().map(|(made, came)| (Frame { made: *made, sensor: 1 }, *came)).collect();
        let mut arrivals: Vec<(u64, usize)> =
            frames.iter().enumerate().filter_map(|(i, frame)| frame.1.map(|came| (came, i))).collect();
        arrivals.sort_unstable();
        Outcome { frames, arrivals, queues: vec![0, queue], last, tries: Tries::default() }
    }

    fn over(outcome: &Outcome) -> Vec<Claim> {
        let (row, promises, tree) = plan();
        let reaches = hold(&row, &promises, &tree, outcome).expect("held");
        reaches.into_iter().filter(Reach::is_over).map(|reach| reach.claim).collect()
    }

    #[test]
    fn queue_too_long() {
        assert_eq!(over(&outcome(3, &[], 0)), []);
        assert_eq!(over(&outcome(4, &[], 0)), [Claim::Queue('E')]);
    }

    #[test]
    fn frame_too_late() {
        assert_eq!(over(&outcome(1, &[(5, Some(105))], 200)), []);
        assert_eq!(over(&outcome(1, &[(5, Some(106))], 200)), [Claim::Delay]);
    }

    /// A frame that has not come to the sink counts with the time so far.
    #[test]
    fn frame_never_there() {
        assert_eq!(over(&outcome(1, &[(5, None)], 105)), []);
        assert_eq!(over(&outcome(1, &[(5, None)], 106)), [Claim::Delay]);
    }

    /// Two frames in t symbols: 2 × 960 ≤ 1918 + t holds from t = 2 on.
    #[test]
    fn stretch_too_full() {
        assert_eq!(over(&outcome(1, &[(5, Some(10)), (5, Some(11))], 20)), []);
        assert_eq!(over(&outcome(1, &[(5, Some(10)), (5, Some(10))], 20)), [Claim::Stretch]);
        assert_eq!(over(&outcome(1, &[(5, Some(10)), (5, Some(90)), (6, Some(91))], 95)), [Claim::Stretch]);
    }

    #[test]
    fn no_plan() {
        assert!(Promises::of(&[]).is_err());
        let (_, promises, _) = plan();
        assert!(promises.line(('U', 1)).is_err());
    }
}
