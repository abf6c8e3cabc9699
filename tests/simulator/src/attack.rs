//! Runs that try to break a plan: directed ones, made alike for every row, and drawn ones.

use crate::aim::{self, Aim};
use crate::chance::Chance;
use crate::failures::Failures;
use crate::hold::{self, Promises};
use crate::readings::{self, Pattern, PATTERNS};
use crate::row::Row;
use crate::run::Outcome;
use crate::setup::{Reading, Setup};
use crate::shapes::{self, Hanging};
use crate::ties::Ties;
use crate::tree::{Tree, Ways};
use crate::windows::Windows;

/// The most nodes of a tree.
const NODES: usize = 400;

/// About the most frames of a directed run, and of a drawn one.
const FRAMES: u64 = 40_000;
const FRAMES_DRAWN: u64 = 4_000;

/// How a setup is made for a tree.
#[derive(Clone, Copy, Debug)]
pub struct Method {
    pub windows: Windows,
    /// What the sensors do; none if it is drawn for each of them.
    pub pattern: Option<Pattern>,
    pub ties: Ties,
    pub failures: Failures,
}

impl Method {
    const fn of(windows: Windows, pattern: Pattern, ties: Ties, failures: Failures) -> Method {
        Method { windows, pattern: Some(pattern), ties, failures }
    }
}

/// The methods tried on every directed tree: all frames just miss every window, and all tries fail that
/// may.
pub const ON_EVERY_TREE: [Method; 2] = [
    Method::of(Windows::JustMissed, Pattern::Greedy, Ties::OldestLast, Failures::Always),
    Method::of(Windows::JustMissed, Pattern::Held, Ties::OldestLast, Failures::Always),
];

/// The methods tried on the largest directed tree besides.
pub const ON_ONE_TREE: [Method; 3] = [
    Method::of(Windows::First, Pattern::Greedy, Ties::OldestLast, Failures::Never),
    Method::of(Windows::Last, Pattern::Greedy, Ties::Drawn(1), Failures::Drawn(1)),
    Method::of(Windows::Lines, Pattern::OnOff, Ties::OldestFirst, Failures::Drawn(2)),
];

/// The most nodes of a tree whose sensors may all make their whole burst.
fn node_limit(row: &Row, frames: u64) -> usize {
    NODES.min((frames / (row.burst + 1)) as usize).max(8)
}

/// The trees of the directed runs: the bare longest route, the route with all end nodes, with all
/// child routers, and the full tree, each where it is not too large; the largest last.
pub fn directed_trees(row: &Row) -> Vec<Tree> {
    let limit = node_limit(row, FRAMES);
    let mut trees: Vec<Tree> = Vec::new();
    let made = [
        shapes::route(row, Hanging::Bare, limit),
        shapes::route(row, Hanging::Ends, limit),
        shapes::route(row, Hanging::Routers, limit),
        shapes::full(row, limit),
    ];
    for tree in made.into_iter().flatten() {
        // A tree of the same size as the one before is the same tree.
        if trees.last().is_none_or(|last| last.nodes.len() < tree.nodes.len()) {
            trees.push(tree);
        }
    }
    trees
}

/// A setup by a method.
pub fn directed(
    row: &Row,
    promises: &Promises,
    tree: &Tree,
    method: Method,
    chance: &mut Chance,
) -> Result<Setup, String> {
    let aim = aim::aim(row, promises, tree, method.windows, chance)?;
    Ok(setup(row, tree.clone(), aim, method, FRAMES, chance))
}

/// The setup with the frame that was on its way longest going last in every tie, the others drawn.
pub fn watched<T: Ways + Clone>(setup: &Setup<T>, outcome: &Outcome, seed: u64) -> Option<Setup<T>> {
    let (frame, _) = hold::longest(outcome)?;
    Some(Setup { ties: Ties::WatchedLast { frame, seed }, ..setup.clone() })
}

/// A drawn setup.
pub fn drawn(row: &Row, promises: &Promises, chance: &mut Chance) -> Result<Setup, String> {
    let tree = drawn_tree(row, chance);
    let method = drawn_method(chance);
    let mut aim = aim::aim(row, promises, &tree, method.windows, chance)?;
    sometimes_together(&mut aim, chance);
    let mut setup = setup(row, tree, aim, method, FRAMES_DRAWN, chance);
    sometimes_silent(&mut setup, chance);
    Ok(setup)
}

/// Windows, patterns, ties and failed tries of all kinds.
pub fn drawn_method(chance: &mut Chance) -> Method {
    let windows =
        [Windows::First, Windows::Last, Windows::Lines, Windows::Drawn, Windows::JustMissed, Windows::JustMissed];
    Method {
        windows: windows[chance.index(windows.len())],
        pattern: if chance.once_in(3) { None } else { Some(drawn_pattern(chance)) },
        ties: drawn_ties(chance),
        failures: drawn_failures(chance),
    }
}

/// What a sensor does.
fn drawn_pattern(chance: &mut Chance) -> Pattern {
    PATTERNS[chance.index(PATTERNS.len())]
}

/// A rule for ties.
pub fn drawn_ties(chance: &mut Chance) -> Ties {
    match chance.up_to(3) {
        0 => Ties::OldestFirst,
        1 => Ties::Drawn(chance.draw()),
        _ => Ties::OldestLast,
    }
}

/// A rule for tries that fail.
fn drawn_failures(chance: &mut Chance) -> Failures {
    match chance.up_to(3) {
        0 => Failures::Never,
        1 => Failures::Always,
        _ => Failures::Drawn(chance.draw()),
    }
}

fn drawn_tree(row: &Row, chance: &mut Chance) -> Tree {
    let limit = node_limit(row, FRAMES_DRAWN);
    let special = match chance.up_to(5) {
        0 => shapes::route(row, Hanging::Bare, limit),
        1 => shapes::route(row, Hanging::Ends, limit),
        2 => shapes::full(row, limit),
        _ => None,
    };
    special.unwrap_or_else(|| shapes::drawn(row, limit, chance))
}

/// Once in four times all sensors in the same symbol, that of one node.
pub fn sometimes_together(aim: &mut Aim, chance: &mut Chance) {
    if chance.once_in(4) {
        let symbol = aim.symbols[chance.index(aim.symbols.len())];
        aim.symbols.fill(symbol);
    }
}

/// Once in three times about a quarter of the sensors makes nothing.
pub fn sometimes_silent<T: Ways>(setup: &mut Setup<T>, chance: &mut Chance) {
    if chance.once_in(3) {
        let silent: Vec<bool> = setup.offsets.iter().map(|_| chance.once_in(4)).collect();
        setup.readings.retain(|reading| !silent[reading.sensor]);
    }
}

/// Offsets, readings of all sensors, ties and failed tries for a tree.
fn setup(row: &Row, tree: Tree, aim: Aim, method: Method, frames: u64, chance: &mut Chance) -> Setup {
    let buckets: Vec<(usize, Row)> = tree.sensors(row).into_iter().map(|sensor| (sensor, *row)).collect();
    let readings = all_readings(&buckets, &aim, method, frames, chance);
    Setup { tree, offsets: aim.offsets, readings, ties: method.ties, failures: method.failures }
}

/// Readings of all sensors, each within its bucket, with about so many frames at most.
pub fn all_readings(
    buckets: &[(usize, Row)],
    aim: &Aim,
    method: Method,
    frames: u64,
    chance: &mut Chance,
) -> Vec<Reading> {
    let share = frames / (buckets.len() as u64).max(1);
    let mut list = Vec::new();
    for (sensor, row) in buckets {
        let count = (row.burst + 3 * row.rate + 4).min(share).max(row.burst + 1);
        let pattern = method.pattern.unwrap_or_else(|| drawn_pattern(chance));
        list.extend(readings::readings(row, *sensor, pattern, aim.symbols[*sensor], count, chance));
    }
    list
}
