//! The run that looks only at symbols in which something changes against the run that looks at every
//! symbol: the same queues, the same symbols of arrival, the same order at the sink, the same tries.

use simulator::air;
use simulator::attack;
use simulator::chance::Chance;
use simulator::drawn_rows;
use simulator::failures::Failures;
use simulator::figures::{self, Answer, Version};
use simulator::hold::Promises;
use simulator::link::{self, Link};
use simulator::naive;
use simulator::row::Row;
use simulator::run::{self, Outcome};
use simulator::setup::{Reading, Setup};
use simulator::shapes;
use simulator::ties::Ties;
use simulator::tree::{Tree, Way, Ways};

fn promises(row: &Row) -> Promises {
    let Answer::Plan(lines) = figures::answer(row, Version::Right) else { panic!("row {row} is planned") };
    Promises::of(&lines).expect("a plan")
}

/// Both runs, compared whole.
fn compare(row: &Row, links: &[Option<Link>], setup: &Setup, last: u64) -> Outcome {
    let quick = run::run(links, setup, last);
    let slow = naive::run(links, setup, last);
    assert_eq!(quick, slow, "row {row}, {setup:?}, last {last}");
    quick
}

/// Readings without regard to any bucket, in any order, some of them alike.
fn any_readings(row: &Row, tree: &Tree, chance: &mut Chance) -> Vec<Reading> {
    let sensors = tree.sensors(row);
    let mut readings = Vec::new();
    if sensors.is_empty() {
        return readings;
    }
    let symbols = [air::exchange(row), air::interval(row), 3 * air::interval(row)][chance.index(3)];
    for _ in 0..chance.up_to(25) {
        let sensor = sensors[chance.index(sensors.len())];
        readings.push(Reading { symbol: chance.up_to(symbols), sensor, count: chance.up_to(3) });
    }
    readings
}

fn any_ties(chance: &mut Chance) -> Ties {
    match chance.up_to(3) {
        0 => Ties::OldestFirst,
        1 => Ties::OldestLast,
        2 => Ties::Drawn(chance.draw()),
        _ => Ties::WatchedLast { frame: chance.index(20), seed: chance.draw() },
    }
}

fn any_failures(chance: &mut Chance) -> Failures {
    match chance.up_to(3) {
        0 => Failures::Never,
        1 => Failures::Always,
        _ => Failures::Drawn(chance.draw()),
    }
}

/// Offsets for all links of a tree; on a grid of exchanges if `grid`, so that starts and ends of
/// different links often share a symbol.
fn any_offsets(row: &Row, promises: &Promises, tree: &Tree, grid: bool, chance: &mut Chance) -> Vec<u64> {
    let offset = |way: Option<Way>| {
        let Some(way) = way else { return 0 };
        let slots = promises.line(way.line).expect("a line").slots;
        let offset = chance.up_to(link::most_offset(row, slots).expect("a window"));
        if grid {
            offset - offset % air::exchange(row)
        } else {
            offset
        }
    };
    tree.ways().into_iter().map(offset).collect()
}

/// Moves readings to starts of drawn links, where they also meet the ends of other exchanges.
fn move_to_starts(links: &[Option<Link>], setup: &mut Setup, chance: &mut Chance) {
    for reading in &mut setup.readings {
        let start = links[chance.index(links.len())].and_then(|link| link.start_from(reading.symbol));
        reading.symbol = start.unwrap_or(reading.symbol);
    }
}

/// A last symbol for a run: often one in which a frame comes to the sink.
fn any_last(row: &Row, links: &[Option<Link>], setup: &Setup, chance: &mut Chance) -> u64 {
    let most = 8 * air::interval(row);
    let arrivals = run::run(links, setup, most).arrivals;
    if arrivals.is_empty() || chance.once_in(2) {
        chance.up_to(most)
    } else {
        arrivals[chance.index(arrivals.len())].0
    }
}

/// A planned row with a short interval, its sink below the root or tries that may fail if asked for.
fn small_row(below_root: bool, lossy: bool, chance: &mut Chance) -> Row {
    loop {
        let row = drawn_rows::drawn(chance, if below_root { 3 } else { 2 });
        if (row.sink > 0 || !below_root) && (row.loss > 0 || !lossy) {
            return row;
        }
    }
}

/// Any readings on drawn trees of drawn rows; the run may end before all frames are at the sink.
#[test]
fn any_runs() {
    let mut chance = Chance::new(17);
    let (mut crossed, mut lossy, mut failed) = (0, 0, 0);
    for number in 0..600 {
        let row = small_row(number % 3 == 0, number % 3 == 1, &mut chance);
        let promises = promises(&row);
        let tree = shapes::drawn(&row, 16, &mut chance);
        let grid = chance.once_in(2);
        let offsets = any_offsets(&row, &promises, &tree, grid, &mut chance);
        let readings = any_readings(&row, &tree, &mut chance);
        let (ties, failures) = (any_ties(&mut chance), any_failures(&mut chance));
        let mut setup = Setup { tree, offsets, readings, ties, failures };
        let links = link::links(&row, &promises, &setup.tree, &setup.offsets).expect("links");
        if grid {
            move_to_starts(&links, &mut setup, &mut chance);
        }
        let last = any_last(&row, &links, &setup, &mut chance);
        let outcome = compare(&row, &links, &setup, last);
        assert_eq!(outcome.check_tries(), Ok(()), "row {row}");
        let arrivals = outcome.arrivals.len();
        crossed += u64::from(row.sink > 0 && arrivals > 5);
        lossy += u64::from(row.loss > 0 && arrivals > 5);
        failed += outcome.tries.failed;
    }
    assert!(crossed > 40, "too few runs with the sink below the root");
    assert!(lossy > 40 && failed > 300, "too few runs with failed tries: {lossy}, {failed} tries");
}

/// Exchanges that are too short for their tries are found out by both runs alike.
#[test]
fn exchanges_too_short() {
    let mut chance = Chance::new(29);
    let mut late = 0;
    for _ in 0..100 {
        let row = small_row(false, true, &mut chance);
        let promises = promises(&row);
        let tree = shapes::drawn(&row, 16, &mut chance);
        let offsets = any_offsets(&row, &promises, &tree, false, &mut chance);
        let readings = any_readings(&row, &tree, &mut chance);
        let (ties, failures) = (any_ties(&mut chance), any_failures(&mut chance));
        let setup = Setup { tree, offsets, readings, ties, failures };
        let mut links = link::links(&row, &promises, &setup.tree, &setup.offsets).expect("links");
        links.iter_mut().flatten().for_each(|link| link.exchange -= 1);
        let outcome = compare(&row, &links, &setup, 8 * air::interval(&row));
        assert_eq!(outcome.tries.late, outcome.tries.worst);
        assert_eq!(outcome.check_tries().is_err(), outcome.tries.late > 0);
        late += u64::from(outcome.tries.late > 0);
    }
    assert!(late > 20, "{late}");
}

/// The runs that the attack makes, on small rows.
#[test]
fn attacking_runs() {
    let mut chance = Chance::new(23);
    let mut compared = 0;
    while compared < 40 {
        let row = drawn_rows::drawn(&mut chance, 2);
        let promises = promises(&row);
        let setup = attack::drawn(&row, &promises, &mut chance).expect("a setup");
        let frames: u64 = setup.readings.iter().map(|reading| reading.count).sum();
        if frames > 400 {
            continue;
        }
        compared += 1;
        assert_eq!(setup.check(&row), Ok(()), "row {row}");
        let links = link::links(&row, &promises, &setup.tree, &setup.offsets).expect("links");
        let last = setup.readings.iter().map(|reading| reading.symbol).max().unwrap_or(0) + 2000;
        compare(&row, &links, &setup, last);
    }
}
