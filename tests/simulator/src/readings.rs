//! Readings that keep a sensor's token bucket (document 01, "The tree and its loads").
//!
//! The bucket is kept here by a level: the largest a × BI − RATE × t over the stretches that end in
//! the symbol last looked at. One symbol later it is RATE lower, but the stretch that is only the
//! present symbol counts too, so it is never below −RATE before the present frames are added.

use crate::air;
use crate::chance::Chance;
use crate::row::Row;
use crate::setup::Reading;

/// One sensor's readings as they are made, in ascending order of symbols.
struct Sensor<'a> {
    row: &'a Row,
    number: usize,
    level: i128,
    now: u64,
    left: u64,
    readings: Vec<Reading>,
}

impl Sensor<'_> {
    /// The level before the present frames if the present symbol were `symbol`.
    fn level_at(&self, symbol: u64) -> i128 {
        let rate = i128::from(self.row.rate);
        (self.level - rate * i128::from(symbol - self.now)).max(-rate)
    }

    /// The frames that may be made in a symbol, from the last one on.
    fn room(&self, symbol: u64) -> u64 {
        let interval = i128::from(air::interval(self.row));
        let free = i128::from(self.row.burst) * interval - self.level_at(symbol);
        u64::try_from(free / interval).unwrap_or(0).min(self.left)
    }

    /// Makes as many of `count` frames in a symbol as are allowed.
    fn make(&mut self, symbol: u64, count: u64) {
        let count = count.min(self.room(symbol));
        if count > 0 {
            self.level = self.level_at(symbol) + i128::from(count) * i128::from(air::interval(self.row));
            self.now = symbol;
            self.left -= count;
            self.readings.push(Reading { symbol, sensor: self.number, count });
        }
    }

    /// The first symbol, not before the last one, in which another frame is allowed.
    fn next_room(&self) -> u64 {
        let interval = i128::from(air::interval(self.row));
        let lack = self.level + interval - i128::from(self.row.burst) * interval;
        let rate = i128::from(self.row.rate);
        let symbols = if lack > 0 { (lack + rate - 1) / rate } else { 0 };
        self.now + symbols as u64
    }

    /// A burst in a symbol, or later if the symbol is past, and then each frame as soon as allowed,
    /// `count` frames in all.
    fn greedy(&mut self, from: u64, count: u64) {
        let goal = self.left.saturating_sub(count);
        let from = from.max(self.now);
        self.make(from, self.left - goal);
        while self.left > goal {
            let symbol = self.next_room().max(from);
            self.make(symbol, self.left - goal);
        }
    }

    /// One frame each BI / RATE symbols, so that the bucket stays nearly full, up to a symbol; at most
    /// `count` frames.
    fn steady(&mut self, from: u64, until: u64, count: u64) {
        let gap = air::interval(self.row).div_ceil(self.row.rate);
        let first = from.max(until.saturating_sub(gap * count));
        let mut symbol = first.max(self.now);
        while symbol < until && self.left > 0 {
            self.make(symbol, 1);
            symbol += gap;
        }
    }
}

/// What a sensor does.
#[derive(Clone, Copy, Debug)]
pub enum Pattern {
    /// Its burst in the symbol aimed at, then each frame as soon as allowed.
    Greedy,
    /// Frames at its rate from early on, the burst held until the symbol aimed at, then greedy.
    Held,
    /// Greedy for a while, silent for as long as it takes to fill the bucket, and again.
    OnOff,
    /// Symbols and counts drawn, cut down to what the bucket allows.
    Drawn,
}

/// All patterns, to draw from.
pub const PATTERNS: [Pattern; 4] = [Pattern::Greedy, Pattern::Held, Pattern::OnOff, Pattern::Drawn];

/// The readings of one sensor that aims at a symbol, at most `count` frames.
pub fn readings(row: &Row, sensor: usize, pattern: Pattern, aim: u64, count: u64, chance: &mut Chance) -> Vec<Reading> {
    let level = -i128::from(row.rate);
    let mut sensor = Sensor { row, number: sensor, level, now: 0, left: count, readings: Vec::new() };
    let interval = air::interval(row);
    match pattern {
        Pattern::Greedy => sensor.greedy(aim, count),
        Pattern::Held => {
            sensor.steady(0, aim, count.saturating_sub(row.burst) / 2);
            sensor.greedy(aim, count);
        }
        Pattern::OnOff => {
            let mut from = aim;
            while sensor.left > 0 {
                sensor.greedy(from, (row.burst + 1 + chance.up_to(row.rate)).min(sensor.left));
                from = sensor.now + row.burst * interval / row.rate + chance.up_to(interval);
            }
        }
        Pattern::Drawn => {
            let mut symbol = chance.up_to(aim);
            while sensor.left > 0 {
                sensor.make(symbol, 1 + chance.up_to(row.burst));
                symbol += 1 + chance.up_to(3 * interval / row.rate);
            }
        }
    }
    sensor.readings
}

#[cfg(test)]
mod tests {
    use super::*;
    use crate::bucket;
    use crate::rows;

    /// Whatever is made keeps the bucket.
    #[test]
    fn kept() {
        let mut chance = Chance::new(3);
        for row in rows::planned() {
            for pattern in PATTERNS {
                let list = readings(&row, 0, pattern, 5000, row.burst + 40, &mut chance);
                assert_eq!(bucket::check(&row, &list), Ok(()), "row {row} {pattern:?}");
                let count: u64 = list.iter().map(|reading| reading.count).sum();
                assert!(count > 0);
            }
        }
    }

    /// The greedy pattern makes as much as is allowed: one more frame one symbol earlier is too many.
    #[test]
    fn to_the_limit() {
        let mut chance = Chance::new(3);
        for row in rows::planned() {
            let list = readings(&row, 0, Pattern::Greedy, 7, row.burst + 20, &mut chance);
            for index in 1..list.len() {
                let mut early = list[..=index].to_vec();
                early[index].symbol -= 1;
                assert!(bucket::check(&row, &early).is_err(), "row {row}");
            }
        }
    }
}
