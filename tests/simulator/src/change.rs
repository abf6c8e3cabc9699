//! Small changes to a setup: a run that came close is changed, and kept if it comes as close or closer.

use crate::air;
use crate::attack::drawn_ties;
use crate::chance::Chance;
use crate::hold::Promises;
use crate::link::most_offset;
use crate::row::Row;
use crate::setup::Setup;
use crate::tree::Ways;

/// The setup with one to three things changed. The readings of a sensor are only moved together, so
/// they keep their bucket.
pub fn changed<T: Ways + Clone>(
    row: &Row,
    promises: &Promises,
    setup: &Setup<T>,
    chance: &mut Chance,
) -> Result<Setup<T>, String> {
    let mut other = setup.clone();
    for _ in 0..=chance.up_to(2) {
        match chance.up_to(4) {
            0 | 1 => move_window(row, promises, &mut other, chance)?,
            2 | 3 => move_readings(row, &mut other, chance),
            _ => other.ties = drawn_ties(chance),
        }
    }
    Ok(other)
}

/// A small or large step: one symbol, some exchanges, some intervals, anything up to an interval.
fn step(row: &Row, chance: &mut Chance) -> u64 {
    match chance.up_to(3) {
        0 => 1,
        1 => air::exchange(row) * (1 + chance.up_to(3)),
        2 => air::interval(row) * (1 + chance.up_to(1)),
        _ => 1 + chance.up_to(air::interval(row)),
    }
}

/// Moves a number up or down by a step, as far as 0 and `most` allow.
fn moved(value: u64, step: u64, most: u64, chance: &mut Chance) -> u64 {
    if chance.once_in(2) {
        value.saturating_add(step).min(most)
    } else {
        value.saturating_sub(step)
    }
}

/// Moves the window of one node, or of all nodes on its line alike.
fn move_window<T: Ways>(
    row: &Row,
    promises: &Promises,
    setup: &mut Setup<T>,
    chance: &mut Chance,
) -> Result<(), String> {
    let ways = setup.tree.ways();
    let node = chance.index(ways.len());
    let Some(way) = ways[node] else { return Ok(()) };
    let most = most_offset(row, promises.line(way.line)?.slots)?;
    let offset = moved(setup.offsets[node], step(row, chance), most, chance);
    let all = chance.once_in(2);
    for (other, other_way) in ways.iter().enumerate() {
        if other == node || (all && other_way.is_some_and(|other| other.line == way.line)) {
            setup.offsets[other] = offset;
        }
    }
    Ok(())
}

/// Moves all readings of one sensor, or of all sensors on its line, by the same number of symbols.
fn move_readings<T: Ways>(row: &Row, setup: &mut Setup<T>, chance: &mut Chance) {
    if setup.readings.is_empty() {
        return;
    }
    let ways = setup.tree.ways();
    let chosen = setup.readings[chance.index(setup.readings.len())].sensor;
    let all = chance.once_in(3);
    let moves = |sensor: usize| {
        let alike = ways[sensor].map(|way| way.line) == ways[chosen].map(|way| way.line);
        sensor == chosen || (all && alike)
    };
    let moving = setup.readings.iter().filter(|reading| moves(reading.sensor));
    let earliest = moving.map(|reading| reading.symbol).min().unwrap_or(0);
    let step = step(row, chance);
    let later = chance.once_in(2);
    for reading in setup.readings.iter_mut().filter(|reading| moves(reading.sensor)) {
        if later {
            reading.symbol += step;
        } else {
            reading.symbol -= step.min(earliest);
        }
    }
}
