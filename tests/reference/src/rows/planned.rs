//! Values that are planned, of every shape that can be, and values at the edge of condition 7. LOSS is 0 in those for
//! 12 names.

use super::*;

/// So many draws are made for a planned tree of the wished shape before the roomiest one is taken.
const TRIES: usize = 30;
/// So many draws are made for a tree whose slots come out even before a fixed one is taken.
const EVEN_TRIES: usize = 300;
/// The largest SO at which a router with reservations may reserve a slot less than one without, for its longer beacon
/// (request E2).
const LONG_BEACON_ORDER: u64 = 3;

/// Values that are planned.
pub fn planned(rng: &mut Rng, heading: Heading) -> Values {
    let mut values = slow(rng, heading);
    let fastest = fastest(&values);
    values[RATE] = match rng.below(4) {
        0 => 1,
        1 => fastest,
        _ => rng.range(1, fastest),
    };
    values
}

/// Values whose slots just suffice, or fall short for the first time, as RATE, M or LOSS grows.
pub fn at_slot_edge(rng: &mut Rng, heading: Heading) -> Values {
    let values = slow(rng, heading);
    let over = rng.below(2);
    at_edge(rng, heading, values, over)
}

/// These values, which are planned, with the largest RATE, M or LOSS with which they are, or with so much more.
fn at_edge(rng: &mut Rng, heading: Heading, mut values: Values, over: u64) -> Values {
    let may_fail = heading == Heading::WithLoss && values[ACK] == 1;
    match rng.below(3) {
        0 if may_fail && rng.one_in(2) => values[LOSS] = MOST_LOSS.min(most_loss(&values) + over),
        0 => {
            let octets = 127.min(longest(&values) + over);
            set_octets(rng, &mut values, octets);
        }
        _ => values[RATE] = 4095.min(fastest(&values) + over),
    }
    values
}

/// Values of which the fullest router uses just the slots that it may reserve, or one more, at an SO at which it may
/// reserve a slot less than a router without reservations (request E2). More than half of them have no end nodes: a
/// router at depth H then has no reservations, and so a slot more than those above it.
pub fn at_beacon_edge(rng: &mut Rng, heading: Heading) -> Values {
    let (order, bare, over) = (rng.range(0, LONG_BEACON_ORDER), rng.one_in(2), rng.below(2));
    for _ in 0..EVEN_TRIES {
        // At such an SO few trees have room for failed tries, so half of them are drawn without.
        let heading = if rng.one_in(2) { Heading::WithoutLoss } else { heading };
        let values = attempt_at(rng, heading, order, bare);
        if plans(&values) {
            let values = at_edge(rng, heading, values, over);
            if settle(&values).is_ok_and(|settings| excess(&settings) == over as i64) {
                return values;
            }
        }
    }
    [4, 0, 1, 1, 0, 1, 0, draw_burst(rng), 7 + over, 17, 1, 0, 0]
}

/// A tree of any shape with this SO, and without end nodes where that is wished; RATE is 1. It keeps every condition
/// but perhaps 6 and 7.
fn attempt_at(rng: &mut Rng, heading: Heading, order: u64, bare: bool) -> Values {
    let (height, sink) = rng.pick(&plannable_shapes());
    let mut values = attempt(rng, heading, height, sink);
    let lowest = MOST_ORDER.min(order + order_gap(height, values[NR]));
    (values[BO], values[SO]) = (rng.range(lowest, MOST_ORDER), order);
    if bare {
        (values[NE], values[OWN]) = (0, 1);
    }
    values
}

/// Values that are planned, with RATE 1.
fn slow(rng: &mut Rng, heading: Heading) -> Values {
    let (height, sink) = rng.pick(&plannable_shapes());
    for _ in 0..TRIES {
        let values = attempt(rng, heading, height, sink);
        if plans(&values) {
            return values;
        }
    }
    roomiest(rng, height, sink)
}

/// A tree of this shape that keeps every condition but perhaps 7. Small trees and large superframes are preferred, as
/// only they can be planned where H is large.
fn attempt(rng: &mut Rng, heading: Heading, height: u64, sink: u64) -> Values {
    let nr = draw_routers(rng, height, sink);
    let ne = smaller_of_two(rng, 0, 7 - nr);
    let own = if ne == 0 { 1 } else { rng.below(2) };
    let gap = order_gap(height, nr);
    let so = if rng.one_in(2) { MOST_ORDER - gap } else { rng.range(0, MOST_ORDER - gap) };
    let bo = if rng.one_in(2) { so + gap } else { rng.range(so + gap, MOST_ORDER) };
    let burst = draw_burst(rng);
    let [ack, loss] = draw_tries(rng, heading);
    let mut values = [bo, so, height, nr, ne, own, sink, burst, 1, 0, 0, ack, loss];
    let octets = draw_octets(rng);
    set_octets(rng, &mut values, octets);
    values
}

/// NR, small enough for condition 6 to be kept with the right BO and SO.
fn draw_routers(rng: &mut Rng, height: u64, sink: u64) -> u64 {
    if height == 0 {
        return 0;
    }
    let mut nr = smaller_of_two(rng, fewest_routers(height, sink), 7);
    while order_gap(height, nr) > MOST_ORDER {
        nr -= 1;
    }
    nr
}

/// The smallest NR that condition 4 lets pass.
fn fewest_routers(height: u64, sink: u64) -> u64 {
    match (height, sink) {
        (0, _) => 0,
        (_, 0) => 1,
        _ => 2,
    }
}

fn smaller_of_two(rng: &mut Rng, low: u64, high: u64) -> u64 {
    rng.range(low, high).min(rng.range(low, high))
}

/// M, often at an end of its range or on either side of the step in X.
pub fn draw_octets(rng: &mut Rng) -> u64 {
    match rng.below(4) {
        0 => rng.pick(&[6, 7, 17, 18, 19, 20, 126, 127]),
        1 => rng.range(6, 18),
        _ => rng.range(6, 127),
    }
}

/// The tree of this shape that needs least and has most: if this one is not planned, none of its shape is.
fn roomiest(rng: &mut Rng, height: u64, sink: u64) -> Values {
    let nr = fewest_routers(height, sink);
    let so = MOST_ORDER - order_gap(height, nr);
    [MOST_ORDER, so, height, nr, 0, 1, sink, draw_burst(rng), 1, 5, 1, 0, 0]
}

/// The largest RATE with which these values, which are planned with RATE 1, are planned.
pub(super) fn fastest(values: &Values) -> u64 {
    let with = |rate| {
        let mut values = *values;
        values[RATE] = rate;
        values
    };
    largest(values[RATE], 4095, |rate| plans(&with(rate)))
}

/// The largest M with which these values, which are planned, are planned.
fn longest(values: &Values) -> u64 {
    let with = |octets: u64| {
        let mut values = *values;
        values[HEAD] = 126.min(octets - 1);
        values[DATA] = octets - values[HEAD];
        values
    };
    largest(values[HEAD] + values[DATA], 127, |octets| plans(&with(octets)))
}

/// The largest LOSS with which these values, which are planned, are planned.
fn most_loss(values: &Values) -> u64 {
    let with = |loss| {
        let mut values = *values;
        values[LOSS] = loss;
        values
    };
    largest(values[LOSS], MOST_LOSS, |loss| plans(&with(loss)))
}

/// The largest number from low to high that holds, where low holds and what holds ends once.
pub fn largest(mut low: u64, mut high: u64, holds: impl Fn(u64) -> bool) -> u64 {
    while low < high {
        let middle = (low + high).div_ceil(2);
        if holds(middle) {
            low = middle;
        } else {
            high = middle - 1;
        }
    }
    low
}

#[cfg(test)]
mod tests {
    use super::*;
    use std::collections::BTreeSet;

    #[test]
    fn planned_values_are_planned() {
        let mut rng = Rng::new(3);
        assert!(Heading::BOTH.into_iter().all(|heading| (0..5_000).all(|_| plans(&planned(&mut rng, heading)))));
    }

    /// Every number of routers and of end nodes, with and without sensing routers, and every exchange time: for each M
    /// one without acknowledgement, one with, and under 13 names those with LOSS 1 to 7.
    #[test]
    fn planned_values_are_of_all_kinds() {
        for (heading, times) in [(Heading::WithoutLoss, 2), (Heading::WithLoss, 9)] {
            let mut rng = Rng::new(5);
            let mut routers = BTreeSet::new();
            let mut frames = BTreeSet::new();
            for _ in 0..50_000 {
                let [_, _, _, nr, ne, own, _, _, _, head, data, ack, loss] = planned(&mut rng, heading);
                routers.insert((nr, ne, own));
                frames.insert((head + data, ack, loss));
            }
            let pairs = (0..=7).flat_map(|nr| (0..=7 - nr).map(move |ne| (nr, ne)));
            assert_eq!(routers.len(), pairs.map(|(_, ne)| if ne == 0 { 1 } else { 2 }).sum());
            assert_eq!(frames.len(), times * 122);
        }
    }

    /// Both sides of the edge and nothing else, with and without end nodes, at every SO at which the longer beacon
    /// counts; and seldom the tree that is fixed.
    #[test]
    fn both_sides_of_the_edge_of_longer_beacons() {
        for heading in Heading::BOTH {
            let mut rng = Rng::new(13);
            let mut seen = BTreeSet::new();
            let mut fixed = 0;
            for _ in 0..5_000 {
                let values = at_beacon_edge(&mut rng, heading);
                let excess = excess(&settle(&values).ok().unwrap());
                assert_eq!(plans(&values), excess == 0);
                seen.insert((values[SO], values[NE] == 0, excess));
                fixed += u32::from(values[..SINK] == [4, 0, 1, 1, 0, 1] && values[HEAD] + values[DATA] == 18);
            }
            let expected = (0..=3).flat_map(|so| [(so, false, 0), (so, false, 1), (so, true, 0), (so, true, 1)]);
            assert_eq!(seen, expected.collect());
            assert!(fixed < 250, "{heading:?} {fixed}");
        }
    }

    #[test]
    fn the_roomiest_of_every_shape_is_planned() {
        let mut rng = Rng::new(4);
        assert!(plannable_shapes().into_iter().all(|(height, sink)| plans(&roomiest(&mut rng, height, sink))));
    }

    #[test]
    fn largest_that_holds() {
        assert_eq!(largest(1, 4095, |number| number <= 77), 77);
        assert_eq!(largest(1, 4095, |_| true), 4095);
        assert_eq!(largest(1, 4095, |number| number == 1), 1);
    }
}
