//! Frames in stretches of consecutive symbols. Both the token bucket of a sensor and the claim about
//! the sink (document 01, "The tree and its loads" and "The run") speak of every such stretch.

/// The largest excess of a list of events, `(symbol, frames)` in ascending order of symbols: over all
/// stretches of t ≥ 1 consecutive symbols, the largest value of a × `interval` − `rate` × t, where a
/// is the number of frames in the stretch. A claim "a × BI ≤ BURST + RATE × t in every stretch" holds
/// exactly if this is at most BURST. The answer comes with the frames a and the symbols t of a
/// stretch that has it; with no frames at all there is none (a = 0 keeps every claim).
///
/// It is enough to look at stretches that begin at an event and end at an event: cutting symbols
/// without frames from the ends of a stretch keeps a and makes t smaller. With P(j) the frames of
/// events 0 to j, the stretch from event i to event j has the excess
///   (P(j) × BI − RATE × (c_j + 1)) − (P(i − 1) × BI − RATE × c_i),
/// so for each j the smallest bracket on the right among i ≤ j is needed, which is kept while j
/// goes up.
///
/// The sums are in i128: frames below 2^64, intervals below 2^24, symbols below 2^62 and rates below
/// 2^60 leave room.
pub fn excess(events: &[(u64, u64)], interval: u64, rate: u64) -> Option<Excess> {
    let (interval, rate) = (i128::from(interval), i128::from(rate));
    let mut frames = 0_i128;
    let mut start: Option<(i128, i128, u64)> = None;
    let mut worst: Option<Excess> = None;
    for &(symbol, count) in events {
        let bracket = frames * interval - rate * i128::from(symbol);
        if start.is_none_or(|(lowest, _, _)| bracket < lowest) {
            start = Some((bracket, frames, symbol));
        }
        frames += i128::from(count);
        let (lowest, before, first) = start?;
        let over = frames * interval - rate * (i128::from(symbol) + 1) - lowest;
        if worst.is_none_or(|worst| over > worst.over) {
            let stretch = symbol - first + 1;
            worst = Some(Excess { over, frames: (frames - before) as u64, symbols: stretch });
        }
    }
    worst
}

/// The largest excess, and the frames and the length of a stretch that has it.
#[derive(Clone, Copy, Debug, PartialEq, Eq)]
pub struct Excess {
    pub over: i128,
    pub frames: u64,
    pub symbols: u64,
}

#[cfg(test)]
mod tests {
    use super::*;
    use crate::chance::Chance;

    /// The excess by literally looking at every stretch of symbols that has a frame.
    fn looked(events: &[(u64, u64)], interval: u64, rate: u64) -> Option<i128> {
        let last = events.last().map_or(0, |event| event.0) + 3;
        let mut worst = None;
        for first in 0..=last {
            let mut frames = 0;
            for symbol in first..=last {
                let here = events.iter().filter(|event| event.0 == symbol);
                frames += here.map(|event| i128::from(event.1)).sum::<i128>();
                let length = i128::from(symbol - first + 1);
                let over = frames * i128::from(interval) - i128::from(rate) * length;
                if frames > 0 && worst.is_none_or(|worst| over > worst) {
                    worst = Some(over);
                }
            }
        }
        worst
    }

    #[test]
    fn every_stretch() {
        let mut chance = Chance::new(11);
        for _ in 0..400 {
            let mut events = Vec::new();
            let mut symbol = chance.up_to(5);
            for _ in 0..chance.up_to(9) {
                events.push((symbol, 1 + chance.up_to(2)));
                symbol += 1 + chance.up_to(4);
            }
            let (interval, rate) = (1 + chance.up_to(9), chance.up_to(12));
            let found = excess(&events, interval, rate);
            assert_eq!(found.map(|found| found.over), looked(&events, interval, rate));
            if let Some(found) = found {
                let over = i128::from(found.frames * interval) - i128::from(rate * found.symbols);
                assert_eq!(over, found.over);
            }
        }
    }

    /// Events of the same symbol may be given one by one.
    #[test]
    fn same_symbol() {
        let once = excess(&[(4, 3)], 10, 2).map(|found| found.over);
        let thrice = excess(&[(4, 1), (4, 1), (4, 1)], 10, 2).map(|found| found.over);
        assert_eq!(once, Some(28));
        assert_eq!(thrice, Some(28));
    }
}
