//! The plan of a row by document 01's recurrences ("The tree and its loads") and requests E2 and E5 of
//! document 02, read independently of any other planner, with six deliberately wrong versions. X is the
//! time of an exchange with its failed tries.
//!
//! Arithmetic is in u128. A rate is at most 4095 × 8 times the number of routers; the number of
//! routers is at most 13 × 7^12 before check 6 and 2^14 after it; bursts and latencies are made only
//! after checks 6 and 7, where a burst is below 2^14 × 8 × (2^12 + 13 × 2^12) × 2^24. All fit.

use crate::air;
use crate::row::Row;

/// The right recurrences, or one of the wrong ones that the simulator must find out.
#[derive(Clone, Copy, Debug, PartialEq, Eq)]
pub enum Version {
    /// Document 01 as it stands.
    Right,
    /// Latency taken as BI less the window.
    LatencyLessWindow,
    /// Latency lower by one exchange and two symbols.
    LatencyShort,
    /// BUFFER one lower on lines where β + ρT is a multiple of BI.
    BufferLow,
    /// DELAY of a link lower by BI / m, rounded down.
    DelayLow,
    /// The load after a link keeps burst β.
    BurstKept,
    /// FRAMES and what follows from them as if no try failed, in the same slots.
    NoFailures,
}

/// The six wrong versions.
pub const WRONG: [Version; 6] = [
    Version::LatencyLessWindow,
    Version::LatencyShort,
    Version::BufferLow,
    Version::DelayLow,
    Version::BurstKept,
    Version::NoFailures,
];

/// One line of a printed plan (document 01, "The printed plan").
#[derive(Clone, Debug, PartialEq, Eq)]
pub struct Line {
    pub kind: char,
    pub depth: u64,
    pub rate: u128,
    pub burst: u128,
    pub slots: u128,
    pub frames: u128,
    pub latency: u128,
    pub buffer: u128,
    pub delay: u128,
}

/// What is answered for a row: its lines, or the refusal's number and place.
#[derive(Clone, Debug, PartialEq, Eq)]
pub enum Answer {
    Plan(Vec<Line>),
    Refused(u64, u64),
}

/// A load: rate in frames per BI, burst in frame-symbols.
#[derive(Clone, Copy)]
struct Load {
    rate: u128,
    burst: u128,
}

impl Load {
    const NONE: Load = Load { rate: 0, burst: 0 };

    fn and(self, count: u64, other: Load) -> Load {
        Load { rate: self.rate + u128::from(count) * other.rate, burst: self.burst + u128::from(count) * other.burst }
    }
}

/// The smallest k with floor(k × S / X) ≥ ρ. The condition is the same as k × S ≥ ρ × X.
fn slots_for(row: &Row, rate: u128) -> u128 {
    (rate * u128::from(air::exchange(row))).div_ceil(u128::from(air::slot(row)))
}

/// One link of the plan: its line and the load that leaves it.
fn link(row: &Row, version: Version, kind: char, depth: u64, load: Load) -> (Line, Load) {
    let bi = u128::from(air::interval(row));
    let x = u128::from(if version == Version::NoFailures { air::good_try(row) } else { air::exchange(row) });
    let window = slots_for(row, load.rate) * u128::from(air::slot(row));
    let frames = window / x;
    // BI − (m − 2) × X, written so that m = 1 needs no negative number.
    let right_latency = bi + 2 * x - frames * x;
    let latency = match version {
        Version::LatencyLessWindow => bi - window,
        Version::LatencyShort => right_latency - x - 2,
        _ => right_latency,
    };
    let full = load.burst + load.rate * latency;
    let low = version == Version::BufferLow && full.is_multiple_of(bi);
    let buffer = full.div_ceil(bi) - u128::from(low);
    let less = if version == Version::DelayLow { bi / frames } else { 0 };
    let delay = load.burst.div_ceil(frames) + latency - less;
    let slots = slots_for(row, load.rate);
    let line = Line { kind, depth, rate: load.rate, burst: load.burst, slots, frames, latency, buffer, delay };
    let burst = if version == Version::BurstKept { load.burst } else { full };
    (line, Load { rate: load.rate, burst })
}

/// Answers a row whose values are in their ranges: checks 4 to 7 of the table, then the plan.
pub fn answer(row: &Row, version: Version) -> Answer {
    match at_odds(row).map(|place| (4, place)).or_else(|| too_many(row)) {
        Some((number, place)) => Answer::Refused(number, place),
        None => Answer::Plan(lines(row, version)),
    }
}

/// Check 4: values at odds, in the order of the table.
fn at_odds(row: &Row) -> Option<u64> {
    if row.so > row.bo {
        Some(2)
    } else if (row.nr == 0) != (row.h == 0) {
        Some(4)
    } else if row.ne == 0 && row.own == 0 {
        Some(5)
    } else if row.sink > row.h || (row.sink > 0 && row.nr < 2) {
        Some(7)
    } else if row.head + row.data > 127 {
        Some(11)
    } else if row.loss > 0 && row.ack == 0 {
        Some(13)
    } else {
        None
    }
}

/// Checks 5, 6 and 7: reservations, routers, slots.
fn too_many(row: &Row) -> Option<(u64, u64)> {
    if row.ne + row.nr > 7 {
        return Some((5, 0));
    }
    let routers: u64 = (0..=row.h).map(|j| row.nr.pow(j as u32)).sum();
    if routers > 1 << (row.bo - row.so) {
        return Some((6, 0));
    }
    let free = |depth| air::free_slots(row, air::reservations(row, depth));
    let over = (0..).zip(most_slots(row)).find(|(depth, slots)| *slots > u128::from(free(*depth)));
    over.map(|(depth, _)| (7, depth))
}

/// The most slots used by a router at each depth (document 01, "Slots used at depth i").
fn most_slots(row: &Row) -> Vec<u128> {
    let up = upward_rates(row);
    let down = downward_rates(row, &up);
    let ends = u128::from(row.ne) * slots_for(row, u128::from(row.rate));
    let at_depth = |i: u64| {
        if i == row.h {
            return ends;
        }
        let upward = slots_for(row, up[i as usize + 1]);
        let beside = ends + u128::from(row.nr) * upward;
        if i >= row.sink {
            return beside;
        }
        let on_path = ends + u128::from(row.nr - 1) * upward + slots_for(row, down[i as usize]);
        // The root is always on the sink's path; lower down there are routers beside it too.
        if i == 0 {
            on_path
        } else {
            on_path.max(beside)
        }
    };
    (0..=row.h).map(at_depth).collect()
}

/// Frames per BI that the sensors at one router and its end nodes make.
fn local_rate(row: &Row) -> u128 {
    u128::from((row.own + row.ne) * row.rate)
}

/// The rate of the upward load at depths 0 to H.
fn upward_rates(row: &Row) -> Vec<u128> {
    let mut rates = vec![local_rate(row); row.h as usize + 1];
    for i in (0..row.h as usize).rev() {
        rates[i] += u128::from(row.nr) * rates[i + 1];
    }
    rates
}

/// The rate of the downward load at depths 0 to SINK − 1.
fn downward_rates(row: &Row, up: &[u128]) -> Vec<u128> {
    let mut rates = Vec::new();
    let mut above = 0;
    for i in 0..row.sink as usize {
        above += local_rate(row) + u128::from(row.nr - 1) * up[i + 1];
        rates.push(above);
    }
    rates
}

/// The lines of a plan: E, U from H up to 1, D from 0 on, S.
fn lines(row: &Row, version: Version) -> Vec<Line> {
    let bi = u128::from(air::interval(row));
    let sensor = Load { rate: u128::from(row.rate), burst: u128::from(row.burst) * bi };
    let mut lines = Vec::new();
    let mut local = Load::NONE.and(row.own, sensor);
    if row.ne > 0 {
        let (line, after) = link(row, version, 'E', 0, sensor);
        lines.push(line);
        local = local.and(row.ne, after);
    }
    // after_up[i] is the load that left depth i upward; nothing comes from below depth H.
    let mut after_up = vec![Load::NONE; row.h as usize + 2];
    for i in (1..=row.h).rev() {
        let load = local.and(row.nr, after_up[i as usize + 1]);
        let (line, after) = link(row, version, 'U', i, load);
        lines.push(line);
        after_up[i as usize] = after;
    }
    let mut after_down = Load::NONE;
    for i in 0..row.sink {
        let load = local.and(row.nr - 1, after_up[i as usize + 1]).and(1, after_down);
        let (line, after) = link(row, version, 'D', i, load);
        lines.push(line);
        after_down = after;
    }
    let load = local.and(row.nr, after_up[row.sink as usize + 1]).and(1, after_down);
    lines.push(Line {
        kind: 'S',
        depth: row.sink,
        rate: load.rate,
        burst: load.burst,
        slots: 0,
        frames: 0,
        latency: 0,
        buffer: load.burst.div_ceil(bi),
        delay: lines.iter().map(|line| line.delay).sum(),
    });
    lines
}

#[cfg(test)]
mod tests {
    use super::*;
    use crate::printed::text;

    fn planned(row: &str) -> String {
        text(&answer(&Row::read(row), Version::Right))
    }

    /// P1 of document 01, the plan printed in "The printed plan".
    #[test]
    fn first_plan() {
        let expected = "KIND DEPTH RATE BURST SLOTS FRAMES LATENCY BUFFER DELAY\n\
                        E 0 1 245760 1 9 245032 2 272339\n\
                        U 1 1 490792 1 9 245032 3 299565\n\
                        S 0 3 1962440 0 0 0 8 571904\n";
        assert_eq!(planned("8 4 1 2 1 0 0 1 1 19 7 0"), expected);
    }

    /// P2: the sink below the root.
    #[test]
    fn sink_below() {
        let expected = "KIND DEPTH RATE BURST SLOTS FRAMES LATENCY BUFFER DELAY\n\
                        E 0 1 245760 1 9 245032 2 272339\n\
                        U 1 1 490792 1 9 245032 3 299565\n\
                        D 0 2 1226616 1 9 245032 7 381323\n\
                        S 1 3 2207472 0 0 0 9 953227\n";
        assert_eq!(planned("8 4 1 2 1 0 1 1 1 19 7 0"), expected);
    }

    /// P1 acknowledged: X = 138. With LOSS 1 an exchange lasts 296, 3 of them fit a slot and T = BI − 296;
    /// with LOSS 7 it lasts 1,244, which takes two slots, and T = BI + 1,244.
    #[test]
    fn first_plan_with_failed_tries() {
        let expected = "KIND DEPTH RATE BURST SLOTS FRAMES LATENCY BUFFER DELAY\n\
                        E 0 1 245760 1 3 245464 2 327384\n\
                        U 1 1 491224 1 3 245464 3 409206\n\
                        S 0 3 1964600 0 0 0 8 736590\n";
        assert_eq!(planned("8 4 1 2 1 0 0 1 1 19 7 1 1"), expected);
        let expected = "KIND DEPTH RATE BURST SLOTS FRAMES LATENCY BUFFER DELAY\n\
                        E 0 1 245760 2 1 247004 3 492764\n\
                        U 1 1 492764 2 1 247004 4 739768\n\
                        S 0 3 1972300 0 0 0 9 1232532\n";
        assert_eq!(planned("8 4 1 2 1 0 0 1 1 19 7 1 7"), expected);
        assert_eq!(planned("8 4 1 2 1 0 0 1 1 19 7 1 0"), planned("8 4 1 2 1 0 0 1 1 19 7 1"));
    }

    /// P3's figures, k = 2, m = 1, T = 1064, delay 2024, with one end node less: 6 slots of the 7 that
    /// request E2 leaves are used. P3's own row uses 8 of 7 and is refused.
    #[test]
    fn third_plan() {
        let row = Row::read("0 0 0 0 3 0 0 1 1 19 7 0");
        assert_eq!(most_slots(&row), [6]);
        let Answer::Plan(lines) = answer(&row, Version::Right) else { panic!("planned") };
        let line = &lines[0];
        assert_eq!((line.slots, line.frames, line.latency, line.delay), (2, 1, 1064, 2024));
        assert_eq!(planned("0 0 0 0 4 0 0 1 1 19 7 0"), "R 7 0\n");
    }

    /// All slots that may be reserved are used, with 1 and with 7 reservations. X = S = 60.
    #[test]
    fn all_slots() {
        for row in ["0 0 0 0 1 0 0 1 7 5 13 0", "0 0 0 0 7 0 0 1 1 5 13 0"] {
            assert_eq!(most_slots(&Row::read(row)), [7]);
            assert!(planned(row).starts_with("KIND"), "{row}");
        }
        assert_eq!(planned("0 0 0 0 1 0 0 1 8 5 13 0"), "R 7 0\n");
    }

    /// Each depth has its own limit: with X = S = 60 the root uses 8 slots for its one reservation and may
    /// use 7. Depth H has no reservations, and with its 8 slots for every depth the row would be planned.
    #[test]
    fn limit_of_each_depth() {
        let row = Row::read("4 0 1 1 0 1 0 1 8 17 1 0");
        assert_eq!(most_slots(&row), [8, 0]);
        assert_eq!([0, 1].map(|depth| air::free_slots(&row, air::reservations(&row, depth))), [7, 8]);
        assert_eq!(planned("4 0 1 1 0 1 0 1 8 17 1 0"), "R 7 0\n");
        assert!(planned("4 0 1 1 0 1 0 1 7 17 1 0").starts_with("KIND"));
        assert_eq!(planned("14 3 6 2 0 1 6 1 1 12 1 0"), "R 7 5\n");
    }

    /// P4 to P10 and the examples of the table of refusals, checks 4 to 7.
    #[test]
    fn limits() {
        assert_eq!(planned("0 0 0 0 5 0 0 1 1 19 7 0"), "R 7 0\n");
        assert_eq!(slots_for(&Row::read("0 0 0 0 1 0 0 1 1 5 13 0"), 1), 1);
        assert_eq!(slots_for(&Row::read("0 0 0 0 1 0 0 1 1 5 13 0"), 2), 2);
        assert!(planned("5 4 1 1 1 0 0 1 1 19 7 0").starts_with("KIND"));
        assert_eq!(planned("5 4 1 2 1 0 0 1 1 19 7 0"), "R 6 0\n");
        assert!(planned("8 4 1 4 3 0 0 1 1 19 7 0").starts_with("KIND"));
        assert_eq!(planned("8 4 1 4 4 0 0 1 1 19 7 0"), "R 5 0\n");
        assert_eq!(planned("4 8 1 2 1 0 0 1 1 19 7 0"), "R 4 2\n");
        assert_eq!(planned("8 4 1 2 1 0 0 1 1 19 7 0 1"), "R 4 13\n");
        assert_eq!(planned("8 4 1 2 1 0 0 1 1 126 2 0 1"), "R 4 11\n");
    }

    /// Every wrong version differs from the right one somewhere, and reserves the same slots.
    #[test]
    fn versions_differ() {
        // X = 94 and with LOSS 1 an exchange of 208; a slot has 120 symbols, so that 4 hold 2: T = BI.
        let row = Row::read("1 1 0 0 1 0 0 1 2 5 13 1 1");
        let Answer::Plan(right) = answer(&row, Version::Right) else { panic!("planned") };
        for version in WRONG {
            let Answer::Plan(wrong) = answer(&row, version) else { panic!("planned") };
            assert_ne!(right, wrong);
            assert!(right.iter().zip(&wrong).all(|(r, w)| r.slots == w.slots));
        }
    }
}
