//! The plan of a surveyed tree, worked out here independently of any other planner, with five
//! deliberately wrong versions. X is the time of an exchange with its failed tries (request E5). A
//! parent has a smaller number than its children, so that loads are added up from the last node to
//! the first, and then down the path to the sink.
//!
//! Arithmetic is in u128; a tree has at most 254 × 4095 frames per interval, and bursts are made only
//! after the checks.

use super::survey::Survey;
use crate::air;
use crate::figures::Line;

/// The right figures, or one of the wrong ones that the simulator must find out.
#[derive(Clone, Copy, Debug, PartialEq, Eq)]
pub enum Version {
    /// Request E3 as it stands.
    Right,
    /// BUFFER one lower where β + ρT is a multiple of BI.
    BufferLow,
    /// ROUTE lower by the latency of the node's own link.
    RouteLow,
    /// The load after a link keeps burst β.
    BurstKept,
    /// The sink's BURST lower by one frame.
    SinkLow,
    /// FRAMES and what follows from them as if no try failed, in the same slots.
    NoFailures,
}

/// The five wrong versions.
pub const WRONG: [Version; 5] =
    [Version::BufferLow, Version::RouteLow, Version::BurstKept, Version::SinkLow, Version::NoFailures];

/// A node's line: the columns of document 01 and ROUTE.
#[derive(Clone, Debug, PartialEq, Eq)]
pub struct NodeLine {
    pub line: Line,
    pub route: u128,
}

/// What is answered for a list: its lines, or the refusal's number and place.
#[derive(Clone, Debug, PartialEq, Eq)]
pub enum Answer {
    Plan(Vec<NodeLine>),
    Refused(u64, u64),
}

/// Rates of a tree.
struct Rates {
    /// Whether the sink is the node or lies below it.
    on_path: Vec<bool>,
    /// The rate that enters each node's link, or the sink.
    entering: Vec<u128>,
}

impl Rates {
    /// What a node off the path sends is all that is made below it and at it; what a node above the sink
    /// sends is all that is made elsewhere than from its child on the path on.
    fn of(survey: &Survey) -> Rates {
        let mut on_path = vec![false; survey.nodes.len()];
        survey.path().into_iter().for_each(|node| on_path[node] = true);
        let mut entering: Vec<u128> = survey.nodes.iter().map(|node| u128::from(node.rate)).collect();
        for node in (1..survey.nodes.len()).rev() {
            if let Some(parent) = survey.nodes[node].parent {
                entering[parent] += entering[node];
            }
        }
        let all = entering[0];
        let below = entering.clone();
        for pair in survey.path().windows(2) {
            entering[pair[1]] = all - below[pair[0]];
        }
        entering[survey.sink] = all;
        Rates { on_path, entering }
    }

    /// The slots of the reservations in a router's superframe: one for each child, whose link is upward,
    /// or the router's own downward one if the sink is there; none where nothing is sent.
    fn reserved(&self, survey: &Survey, router: usize) -> Vec<u128> {
        let children = (0..survey.nodes.len()).filter(|node| survey.nodes[*node].parent == Some(router));
        let rates = children.map(|child| self.entering[if self.on_path[child] { router } else { child }]);
        rates.filter(|rate| *rate > 0).map(|rate| slots_for(survey, rate)).collect()
    }
}

/// The smallest k with k × S ≥ ρ × X.
fn slots_for(survey: &Survey, rate: u128) -> u128 {
    let row = survey.row();
    (rate * u128::from(air::exchange(&row))).div_ceil(u128::from(air::slot(&row)))
}

/// Answers a list whose settings are in their ranges: check 4, then 6, then 5 and 7 at each router.
pub fn answer(survey: &Survey, version: Version) -> Answer {
    let rates = Rates::of(survey);
    match refusal(survey, &rates) {
        Some((number, place)) => Answer::Refused(number, place),
        None => Answer::Plan(lines(survey, &rates, version)),
    }
}

fn refusal(survey: &Survey, rates: &Rates) -> Option<(u64, u64)> {
    if survey.so > survey.bo {
        return Some((4, 2));
    }
    if survey.head + survey.data > 127 {
        return Some((4, 11));
    }
    if survey.loss > 0 && survey.ack == 0 {
        return Some((4, 13));
    }
    let routers: Vec<usize> = (0..survey.nodes.len()).filter(|node| survey.is_router(*node)).collect();
    if routers.len() > 1 << (survey.bo - survey.so) {
        return Some((6, 0));
    }
    routers.into_iter().find_map(|router| {
        let slots = rates.reserved(survey, router);
        let number = if slots.len() > 7 {
            5
        } else if slots.iter().sum::<u128>() > u128::from(air::free_slots(&survey.row(), slots.len() as u64)) {
            7
        } else {
            return None;
        };
        Some((number, router as u64 + 1))
    })
}

/// The lines, in node order.
fn lines(survey: &Survey, rates: &Rates, version: Version) -> Vec<NodeLine> {
    let interval = u128::from(air::interval(&survey.row()));
    let mut bursts: Vec<u128> = survey.nodes.iter().map(|node| u128::from(node.burst) * interval).collect();
    let path = survey.path();
    let senders = (0..survey.nodes.len()).rev().filter(|node| !rates.on_path[*node]);
    let senders: Vec<usize> = senders.chain(path[1..].iter().rev().copied()).collect();
    let next: Vec<usize> = next_nodes(survey);
    for node in &senders {
        let left = after(survey, rates.entering[*node], bursts[*node], version);
        bursts[next[*node]] += left;
    }
    let mut lines: Vec<NodeLine> =
        (0..bursts.len()).map(|node| line(survey, rates.entering[node], bursts[node], node, version)).collect();
    // Each node's receiver has its route before it.
    for node in senders.into_iter().rev() {
        lines[node].route += lines[next[node]].route;
    }
    let silent = lines.iter_mut().filter(|line| line.line.slots == 0);
    silent.for_each(|line| line.route = 0);
    if version == Version::RouteLow {
        lines.iter_mut().for_each(|line| line.route -= line.line.latency);
    }
    lines
}

/// The neighbour on the way to the sink; the sink's is not looked at.
fn next_nodes(survey: &Survey) -> Vec<usize> {
    let mut next: Vec<usize> = survey.nodes.iter().map(|node| node.parent.unwrap_or(0)).collect();
    survey.path().windows(2).for_each(|pair| next[pair[1]] = pair[0]);
    next
}

/// T and m of a link.
fn link(survey: &Survey, rate: u128, version: Version) -> (u128, u128) {
    let row = survey.row();
    let exchange = if version == Version::NoFailures { air::good_try(&row) } else { air::exchange(&row) };
    let (interval, exchange) = (u128::from(air::interval(&row)), u128::from(exchange));
    let frames = slots_for(survey, rate) * u128::from(air::slot(&row)) / exchange;
    (interval + 2 * exchange - frames * exchange, frames)
}

/// The burst that leaves a link.
fn after(survey: &Survey, rate: u128, burst: u128, version: Version) -> u128 {
    if rate == 0 || version == Version::BurstKept {
        burst
    } else {
        burst + rate * link(survey, rate, version).0
    }
}

/// A node's line, with the delay of its own link as ROUTE.
fn line(survey: &Survey, rate: u128, burst: u128, node: usize, version: Version) -> NodeLine {
    let interval = u128::from(air::interval(&survey.row()));
    let depth = std::iter::successors(Some(node), |node| survey.nodes[*node].parent).count() as u64 - 1;
    let on_path = survey.path().contains(&node);
    let kind = match (node == survey.sink, on_path, survey.is_router(node)) {
        (true, ..) => 'S',
        (_, true, _) => 'D',
        (.., true) => 'U',
        _ => 'E',
    };
    let mut line = Line { kind, depth, rate, burst, slots: 0, frames: 0, latency: 0, buffer: 0, delay: 0 };
    if kind == 'S' {
        line.buffer = burst.div_ceil(interval);
        if version == Version::SinkLow {
            line.burst = burst.saturating_sub(interval);
        }
    } else if rate > 0 {
        let (latency, frames) = link(survey, rate, version);
        let full = burst + rate * latency;
        let low = version == Version::BufferLow && full.is_multiple_of(interval);
        line.slots = slots_for(survey, rate);
        (line.frames, line.latency) = (frames, latency);
        line.buffer = full.div_ceil(interval) - u128::from(low);
        line.delay = burst.div_ceil(frames) + latency;
    }
    NodeLine { route: line.delay, line }
}

#[cfg(test)]
mod tests {
    use super::super::printed::text;
    use super::*;

    const P1: &str = "NODE PARENT BURST RATE\n1 0 0 0\n2 1 0 0\n3 1 0 0\n4 1 1 1\n5 2 1 1\n6 3 1 1\n";
    const HEADER: &str = "KIND DEPTH RATE BURST SLOTS FRAMES LATENCY BUFFER DELAY ROUTE\n";

    fn planned(list: &str, settings: &str) -> String {
        text(&answer(&Survey::read(list, settings).expect("a survey"), Version::Right))
    }

    /// P1 and P2 of document 01 as lists.
    #[test]
    fn first_plans() {
        let upward = "S 0 3 1962440 0 0 0 8 0 0\n\
                      U 1 1 490792 1 9 245032 3 299565 299565\n\
                      U 1 1 490792 1 9 245032 3 299565 299565\n\
                      E 1 1 245760 1 9 245032 2 272339 272339\n\
                      E 2 1 245760 1 9 245032 2 272339 571904\n\
                      E 2 1 245760 1 9 245032 2 272339 571904\n";
        assert_eq!(planned(P1, "8 4 19 7 0 1"), format!("{HEADER}{upward}"));
        let downward = "D 0 2 1226616 1 9 245032 7 381323 381323\n\
                        S 1 3 2207472 0 0 0 9 0 0\n\
                        U 1 1 490792 1 9 245032 3 299565 680888\n\
                        E 1 1 245760 1 9 245032 2 272339 653662\n\
                        E 2 1 245760 1 9 245032 2 272339 272339\n\
                        E 2 1 245760 1 9 245032 2 272339 953227\n";
        assert_eq!(planned(P1, "8 4 19 7 0 2"), format!("{HEADER}{downward}"));
    }

    /// P1 acknowledged, as the row with LOSS 1 and 7 is planned.
    #[test]
    fn first_plan_with_failed_tries() {
        let upward = "S 0 3 1964600 0 0 0 8 0 0\n\
                      U 1 1 491224 1 3 245464 3 409206 409206\n\
                      U 1 1 491224 1 3 245464 3 409206 409206\n\
                      E 1 1 245760 1 3 245464 2 327384 327384\n\
                      E 2 1 245760 1 3 245464 2 327384 736590\n\
                      E 2 1 245760 1 3 245464 2 327384 736590\n";
        assert_eq!(planned(P1, "8 4 19 7 1 1 1"), format!("{HEADER}{upward}"));
        assert!(planned(P1, "8 4 19 7 1 1 7").contains("\nE 2 1 245760 2 1 247004 3 492764 1232532\n"));
    }

    /// Links without traffic, upward and downward, have zeros, and no part in the checks.
    #[test]
    fn silent() {
        let list = "NODE PARENT BURST RATE\n1 0 0 0\n2 1 0 0\n3 2 0 0\n4 1 0 0\n5 2 1 1\n";
        let expected = "D 0 0 0 0 0 0 0 0 0\n\
                        S 1 1 7680 0 0 0 2 0 0\n\
                        E 2 0 0 0 0 0 0 0 0\n\
                        E 1 0 0 0 0 0 0 0 0\n\
                        E 2 1 3840 1 2 3840 2 5760 5760\n";
        assert_eq!(planned(list, "2 1 5 13 0 2"), format!("{HEADER}{expected}"));
        let leaves: String = (2..=254).map(|node| format!("{node} 1 0 0\n")).collect();
        assert!(planned(&format!("NODE PARENT BURST RATE\n1 0 1 1\n{leaves}"), "0 0 5 1 0 1").starts_with("KIND"));
    }

    /// Checks 4, 6, 5 and 7, the last two router by router: with X = S = 60 a link has as many slots as
    /// its rate, of the 7 that may be reserved.
    #[test]
    fn limits() {
        let list = |rates: &[(u64, u64)]| {
            let lines = rates
                .iter()
                .enumerate()
                .map(|(node, (parent, rate))| format!("{} {parent} {} {rate}\n", node + 1, u64::from(*rate > 0)));
            format!("NODE PARENT BURST RATE\n{}", lines.collect::<String>())
        };
        assert_eq!(planned(P1, "3 4 19 7 0 1"), "R 4 2\n");
        assert_eq!(planned(P1, "8 4 126 2 0 1"), "R 4 11\n");
        assert_eq!(planned(P1, "8 4 126 2 0 1 1"), "R 4 11\n");
        assert_eq!(planned(P1, "8 4 126 1 0 1 1"), "R 4 13\n");
        assert_eq!(planned(P1, "5 4 19 7 0 1"), "R 6 0\n");
        assert!(planned(&list(&[(0, 0), (1, 7)]), "8 0 5 13 0 1").starts_with("KIND"));
        assert_eq!(planned(&list(&[(0, 0), (1, 8)]), "8 0 5 13 0 1"), "R 7 1\n");
        let eight = [&[(0, 0)][..], &[(1, 1); 8]].concat();
        assert_eq!(planned(&list(&eight), "8 0 5 13 0 1"), "R 5 1\n");
        let below = [&[(0, 0), (1, 0)][..], &[(2, 1); 8]].concat();
        assert_eq!(planned(&list(&below), "8 0 5 13 0 1"), "R 7 1\n");
        assert_eq!(planned(&list(&below), "8 1 5 13 0 1"), "R 5 2\n");
        // The root's superframe has node 4's 3 slots and the downward link's 4 or 5.
        assert!(planned(&list(&[(0, 1), (1, 0), (2, 0), (1, 3)]), "8 0 5 13 0 2").starts_with("KIND"));
        assert_eq!(planned(&list(&[(0, 2), (1, 0), (2, 0), (1, 3)]), "8 0 5 13 0 2"), "R 7 1\n");
    }

    /// Every wrong version differs from the right one, and reserves the same slots.
    #[test]
    fn versions_differ() {
        // Two exchanges of 208 symbols in 4 slots of 120: T = BI.
        let survey = Survey::read("NODE PARENT BURST RATE\n1 0 0 0\n2 1 1 2\n", "1 1 5 13 1 1 1").expect("a survey");
        let Answer::Plan(right) = answer(&survey, Version::Right) else { panic!("planned") };
        for version in WRONG {
            let Answer::Plan(wrong) = answer(&survey, version) else { panic!("planned") };
            assert_ne!(right, wrong);
            assert!(right.iter().zip(&wrong).all(|(right, wrong)| right.line.slots == wrong.line.slots));
        }
    }
}
