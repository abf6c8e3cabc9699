//! Rows, name lines and whole inputs for tests, drawn at random from a seed. They are of all kinds that document 01 can
//! answer, under both name lines: plans of every shape, every refusal at every place, values on both sides of each
//! limit, and damaged text. Damaged lines of refusals are drawn as well.

mod broken;
mod inputs;
mod lines;
mod listed;
mod planned;
mod reach;
mod refused;
mod rng;
mod twins;

pub(crate) use broken::{broken, noise};
pub use inputs::{named_row, text};
pub use lines::{damaged_line, damaged_tree_line, made_up_line, made_up_tree_line};
pub use listed::{listed, Answered, Listed, DEEPEST_SINK};
pub(crate) use planned::{draw_octets, largest};
pub use reach::{plannable_shapes, reachable_refusals, Seen};
pub use rng::Rng;
pub use twins::{twin_rows, twin_texts};

use crate::settings::{settle, Values};
use crate::tree::{excess, reserve};
use crate::Heading;

// Columns by name, as indexes of `Values`.
const BO: usize = 0;
const SO: usize = 1;
const H: usize = 2;
const NR: usize = 3;
const NE: usize = 4;
const OWN: usize = 5;
const SINK: usize = 6;
const BURST: usize = 7;
const RATE: usize = 8;
const HEAD: usize = 9;
const DATA: usize = 10;
const ACK: usize = 11;
const LOSS: usize = 12;

/// The largest BO and SO.
const MOST_ORDER: u64 = 14;
/// The largest LOSS.
const MOST_LOSS: u64 = 7;

/// A line of values for one of the name lines, without its LF, or bytes that are none.
pub fn row(rng: &mut Rng, heading: Heading) -> Vec<u8> {
    match rng.below(100) {
        0..=82 => written(heading, &values(rng, heading)),
        83..=96 => {
            let whole = written(heading, &values(rng, heading));
            broken::broken(rng, whole)
        }
        _ => broken::noise(rng),
    }
}

/// Values that can all be read; LOSS is 0 under 12 names.
fn values(rng: &mut Rng, heading: Heading) -> Values {
    match rng.below(83) {
        0..=34 => planned::planned(rng, heading),
        35..=43 => planned::at_slot_edge(rng, heading),
        44..=49 => planned::at_beacon_edge(rng, heading),
        50..=53 => refused::overfull(rng),
        54..=61 => refused::out_of_range(rng, heading),
        62..=69 => refused::at_odds(rng, heading),
        70..=73 => refused::at_reservation_edge(rng, heading),
        74..=78 => refused::at_router_edge(rng, heading),
        _ => refused::anything_in_range(rng, heading),
    }
}

/// The values that the name line has names for.
fn written(heading: Heading, values: &Values) -> Vec<u8> {
    values.map(|value| value.to_string())[..heading.columns()].join(" ").into_bytes()
}

/// These values are planned.
fn plans(values: &Values) -> bool {
    settle(values).is_ok_and(|settings| reserve(&settings).is_ok())
}

/// The smallest BO − SO that has room for the routers of a full tree, at least one past the largest possible
/// difference if there is none.
fn order_gap(height: u64, routers: u64) -> u64 {
    let count: u64 = (0..=height as u32).map(|depth| routers.pow(depth)).sum();
    u64::from(count.next_power_of_two().trailing_zeros())
}

/// A burst, often at an end of its range.
pub(crate) fn draw_burst(rng: &mut Rng) -> u64 {
    match rng.below(6) {
        0 => 1,
        1 => 2,
        2 => 254,
        3 => 255,
        _ => rng.range(1, 255),
    }
}

/// ACK and a LOSS that fits it. Under 13 names LOSS is mostly above 0, as only few trees have room for it.
pub(crate) fn draw_tries(rng: &mut Rng, heading: Heading) -> [u64; 2] {
    match (heading, rng.below(8)) {
        (Heading::WithoutLoss, drawn) => [drawn % 2, 0],
        (Heading::WithLoss, drawn @ (0 | 1)) => [drawn, 0],
        (Heading::WithLoss, _) => [1, rng.range(1, MOST_LOSS)],
    }
}

/// A frame of this many octets (6 to 248), cut anywhere into HEAD and DATA.
fn set_octets(rng: &mut Rng, values: &mut Values, octets: u64) {
    values[HEAD] = rng.range(5.max(octets.saturating_sub(122)), 126.min(octets - 1));
    values[DATA] = octets - values[HEAD];
}

#[cfg(test)]
mod tests {
    use super::*;
    use crate::Settings;
    use std::collections::BTreeMap;

    #[test]
    fn written_values() {
        let values = [8, 4, 1, 2, 1, 0, 0, 1, 1, 19, 7, 0, 3];
        assert_eq!(written(Heading::WithoutLoss, &values), b"8 4 1 2 1 0 0 1 1 19 7 0");
        assert_eq!(written(Heading::WithLoss, &values), b"8 4 1 2 1 0 0 1 1 19 7 0 3");
    }

    #[test]
    fn gaps_of_full_trees() {
        assert_eq!(
            [(0, 0), (1, 1), (1, 2), (3, 1), (4, 1), (8, 2)].map(|(h, nr)| order_gap(h, nr)),
            [0, 1, 2, 2, 3, 9]
        );
        assert!(order_gap(12, 7) > MOST_ORDER);
    }

    #[test]
    fn the_same_seed_draws_the_same() {
        let drawn = |seed| {
            let mut rng = Rng::new(seed);
            (named_row(&mut rng), row(&mut rng, Heading::WithLoss), text(&mut rng))
        };
        assert_eq!(drawn(5), drawn(5));
        assert_ne!(drawn(5), drawn(6));
    }

    #[test]
    fn everything_reachable_is_drawn() {
        let mut rng = Rng::new(1);
        let mut seen = Seen::default();
        for _ in 0..200_000 {
            let (names, row) = named_row(&mut rng);
            seen.note(&names, &row, &crate::plan_named_row(&names, &row));
        }
        assert_eq!(seen.missing(), Vec::<String>::new());
        assert_eq!(seen.unexpected(), Vec::<String>::new());
    }

    /// Both sides of every limit, and both parts of condition 4 at places 4 and 7, under either name line.
    #[test]
    fn both_sides_of_every_limit_are_drawn() {
        for heading in Heading::BOTH {
            let mut rng = Rng::new(2);
            let mut counts = [0; 14];
            for _ in 0..50_000 {
                let drawn = values(&mut rng, heading);
                for (count, met) in counts.iter_mut().zip(limits(&drawn)) {
                    *count += u32::from(met);
                }
            }
            assert!(counts.iter().all(|&count| count >= 50), "{heading:?} {counts:?}");
        }
    }

    /// Under 13 names each LOSS has rows whose fullest router uses just the slots that it may reserve, and one more;
    /// and values at odds at LOSS alone, and at DATA as well, which comes before.
    #[test]
    fn both_sides_of_every_limit_are_drawn_with_loss() {
        let mut rng = Rng::new(15);
        let mut counts = BTreeMap::new();
        for _ in 0..50_000 {
            let drawn = values(&mut rng, Heading::WithLoss);
            let of = |name: &str| (drawn[LOSS], name.to_string());
            match settle(&drawn) {
                Ok(settings) if reserve(&settings).err().is_none_or(|refusal| refusal.number == 7) => {
                    *counts.entry(of(&excess(&settings).to_string())).or_insert(0) += 1;
                }
                Err(refusal) if refusal.number == 4 && drawn[LOSS] > 0 && drawn[ACK] == 0 => {
                    *counts.entry(of(&format!("at odds at {}", refusal.place))).or_insert(0) += 1;
                }
                _ => (),
            }
        }
        let count = |loss: u64, name: &str| counts.get(&(loss, name.to_string())).copied().unwrap_or(0);
        assert!((0..=MOST_LOSS).all(|loss| count(loss, "0") >= 50 && count(loss, "1") >= 50), "{counts:?}");
        assert!((1..=MOST_LOSS).all(|loss| count(loss, "at odds at 13") >= 20), "{counts:?}");
        assert!((1..=MOST_LOSS).map(|loss| count(loss, "at odds at 11")).sum::<u32>() >= 20, "{counts:?}");
    }

    /// Rows whose fullest router uses just the slots that it may reserve, and one more: for SO 0 to 3, at which its
    /// longer beacon counts (request E2), and for the others together. For each there are rows with end nodes and rows
    /// without any; in these a router at depth H may reserve a slot more than those above it if SO is 3 or less.
    #[test]
    fn both_sides_of_what_each_router_may_reserve_are_drawn() {
        let mut rng = Rng::new(12);
        let mut counts = BTreeMap::new();
        for _ in 0..50_000 {
            let drawn = values(&mut rng, Heading::WithoutLoss);
            let reached = |settings: &Settings| reserve(settings).err().is_none_or(|refusal| refusal.number == 7);
            let excess = settle(&drawn).ok().filter(reached).map(|settings| excess(&settings));
            *counts.entry((drawn[SO].min(4), drawn[NE] == 0, excess)).or_insert(0) += 1;
        }
        for order in 0..=4 {
            for (bare, excess) in [(false, 0), (false, 1), (true, 0), (true, 1)] {
                let count = counts.get(&(order, bare, Some(excess))).copied().unwrap_or(0);
                assert!(count >= 50, "SO {order}, no end nodes {bare}, excess {excess}: {count} rows");
            }
        }
    }

    fn limits(drawn: &Values) -> [bool; 14] {
        let settled = settle(drawn);
        let refused = |place| matches!(&settled, Err(refusal) if (refusal.number, refusal.place) == (4, place));
        let reserved = settled.as_ref().ok().and_then(|settings| reserve(settings).err());
        let reached = settled.is_ok() && reserved.is_none_or(|refusal| refusal.number == 7);
        let excess = settled.as_ref().ok().filter(|_| reached).map(excess);
        let tree = settled.is_ok() && drawn[NE] + drawn[NR] <= 7;
        let gap = if tree { drawn[BO] - drawn[SO] } else { 0 };
        let line_tree = tree && drawn[NR] == 1;
        [
            excess == Some(0),
            excess == Some(1),
            line_tree && drawn[H] + 1 == 1 << gap,
            line_tree && drawn[H] == 1 << gap,
            settled.is_ok() && drawn[NE] + drawn[NR] == 7,
            settled.is_ok() && drawn[NE] + drawn[NR] == 8,
            settled.is_ok() && drawn[HEAD] + drawn[DATA] == 127,
            refused(11) && drawn[HEAD] + drawn[DATA] == 128,
            refused(4) && drawn[NR] == 0,
            refused(4) && drawn[H] == 0,
            refused(7) && drawn[SINK] > drawn[H],
            refused(7) && drawn[SINK] <= drawn[H],
            reached && drawn[BURST] == 255,
            reached && drawn[RATE] == 4095,
        ]
    }
}
