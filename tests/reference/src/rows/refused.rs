//! Values that can be read and are refused for their range or by conditions 4 to 7, and values just within those.

use super::*;
use crate::settings::RANGES;

/// Rows refused with number 7 at each depth where that can happen, found by the search in `reach`.
const OVERFULL: [Values; 6] = [
    [14, 0, 0, 0, 1, 0, 0, 1, 2, 77, 1, 1, 0],
    [14, 1, 2, 2, 1, 0, 2, 1, 1, 27, 1, 1, 0],
    [14, 2, 4, 2, 0, 1, 3, 1, 1, 21, 1, 0, 0],
    [14, 5, 5, 2, 3, 0, 5, 1, 1, 30, 1, 0, 0],
    [14, 3, 6, 2, 0, 1, 6, 1, 1, 12, 1, 0, 0],
    [14, 6, 7, 2, 1, 0, 7, 1, 1, 55, 1, 1, 0],
];

/// A row refused with number 7, at a depth that other draws seldom reach.
pub fn overfull(rng: &mut Rng) -> Values {
    let mut values = rng.pick(&OVERFULL);
    let octets = values[HEAD] + values[DATA];
    set_octets(rng, &mut values, octets);
    values[BURST] = draw_burst(rng);
    values
}

/// One value outside its range, seldom two.
pub fn out_of_range(rng: &mut Rng, heading: Heading) -> Values {
    let mut values = planned::planned(rng, heading);
    for _ in 0..rng.pick(&[1, 1, 1, 2]) {
        let column = rng.index(heading.columns());
        values[column] = outside(rng, RANGES[column]);
    }
    values
}

/// A readable value below or above a range.
fn outside(rng: &mut Rng, (low, high): (u64, u64)) -> u64 {
    if low > 0 && rng.one_in(2) {
        return rng.below(low);
    }
    match rng.below(4) {
        0 => 9999,
        1 => rng.range(high + 1, 9999),
        _ => high + 1,
    }
}

/// Values at odds, seldom in two ways, of which the first in the table answers.
pub fn at_odds(rng: &mut Rng, heading: Heading) -> Values {
    let mut values = planned::planned(rng, heading);
    for _ in 0..rng.pick(&[1, 1, 1, 2]) {
        put_at_odds(rng, heading, &mut values);
    }
    values
}

fn put_at_odds(rng: &mut Rng, heading: Heading, values: &mut Values) {
    match rng.below(8) {
        0 => {
            values[BO] = rng.range(0, MOST_ORDER - 1);
            values[SO] = rng.range(values[BO] + 1, MOST_ORDER);
        }
        1 => (values[H], values[NR]) = (rng.range(1, 12), 0),
        2 => (values[H], values[NR]) = (0, rng.range(1, 7)),
        3 => (values[NE], values[OWN]) = (0, 0),
        4 => {
            values[H] = values[H].min(11);
            values[SINK] = rng.range(values[H] + 1, 12);
        }
        5 => {
            values[H] = values[H].max(1);
            values[NR] = 1;
            values[SINK] = rng.range(1, values[H]);
        }
        6 if heading == Heading::WithLoss => (values[ACK], values[LOSS]) = (0, rng.range(1, MOST_LOSS)),
        _ => {
            let octets = if rng.one_in(2) { 128 } else { rng.range(128, 248) };
            set_octets(rng, values, octets);
        }
    }
}

/// NE + NR of 7, 8 or more.
pub fn at_reservation_edge(rng: &mut Rng, heading: Heading) -> Values {
    let mut values = planned::planned(rng, heading);
    values[H] = values[H].max(1);
    values[NR] = rng.range(values[NR].max(1), 7);
    values[NE] = match rng.below(3) {
        0 => 7 - values[NR],
        1 => 8 - values[NR],
        _ => rng.range(8 - values[NR], 7),
    };
    values
}

/// A superframe order difference that has just room for the routers, or is one short of it. Where NR = 1 and H + 1 is a
/// power of 2, or one more than that, the number of routers is at the limit itself.
pub fn at_router_edge(rng: &mut Rng, heading: Heading) -> Values {
    let mut values = planned::planned(rng, heading);
    values[H] = rng.pick(&[1, 1, 2, 3, 3, 4, 5, 7, 8, 12]);
    values[NR] = rng.pick(&[1, 1, 1, 2, 2, 3, 4, 5, 6, 7]);
    values[NE] = rng.range(1, 7).min(7 - values[NR]);
    values[OWN] = if values[NE] == 0 { 1 } else { rng.below(2) };
    values[SINK] = if values[NR] == 1 { 0 } else { rng.range(0, values[H]) };
    let gap = MOST_ORDER.min(order_gap(values[H], values[NR]) - rng.below(2));
    values[BO] = rng.range(gap, MOST_ORDER);
    values[SO] = values[BO] - gap;
    values
}

/// Every value of the name line anywhere in its range.
pub fn anything_in_range(rng: &mut Rng, heading: Heading) -> Values {
    let mut values = RANGES.map(|(low, high)| rng.range(low, high));
    values[heading.columns()..].fill(0);
    values
}
