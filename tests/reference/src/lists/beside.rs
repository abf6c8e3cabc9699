//! The settings and the sink that are given beside a list.

use super::Tree;
use crate::rows::{draw_octets, draw_tries, Rng};
use crate::{Beside, Heading};

const MOST_ORDER: u32 = 14;
const MOST_LOSS: u32 = 7;

/// Settings in their ranges with just room for the routers, more of it, or seldom half of it; and a router as the sink.
/// Large superframes are preferred, as only they have room for much traffic.
pub fn fitting(rng: &mut Rng, tree: &Tree) -> Beside {
    let routers = tree.routers().len() as u32;
    let short = u32::from(routers > 1 && rng.one_in(20));
    let gap = routers.next_power_of_two().trailing_zeros() - short;
    let most = MOST_ORDER - gap;
    let superframe_order = if rng.one_in(2) { most } else { rng.range(0, u64::from(most)) as u32 };
    let lowest = superframe_order + gap;
    let close = short == 1 || rng.one_in(2);
    let beacon_order = if close { lowest } else { rng.range(u64::from(lowest), u64::from(MOST_ORDER)) as u32 };
    let sink = sink(rng, tree);
    with_frame(rng, beacon_order, superframe_order, sink)
}

/// Every setting anywhere in its range; SO may be above BO, and LOSS above 0 where ACK is 0.
pub fn anything_in_range(rng: &mut Rng, tree: &Tree) -> Beside {
    let order = |rng: &mut Rng| rng.range(0, u64::from(MOST_ORDER)) as u32;
    let (beacon_order, superframe_order) = (order(rng), order(rng));
    let sink = sink(rng, tree);
    let beside = with_frame(rng, beacon_order, superframe_order, sink);
    if rng.one_in(3) {
        let loss = rng.range(0, u64::from(MOST_LOSS)) as u32;
        Beside { head: rng.range(5, 126) as u32, data: rng.range(1, 122) as u32, loss, ..beside }
    } else {
        beside
    }
}

fn with_frame(rng: &mut Rng, beacon_order: u32, superframe_order: u32, sink: u32) -> Beside {
    let octets = draw_octets(rng);
    let head = rng.range(5.max(octets.saturating_sub(122)), octets - 1);
    let heading = rng.pick(&Heading::BOTH);
    let [ack, loss] = draw_tries(rng, heading);
    let [head, data, ack, loss] = [head, octets - head, ack, loss].map(|value| value as u32);
    Beside { beacon_order, superframe_order, head, data, ack, sink, loss }
}

/// A router: often the root or the last one, which is mostly deep.
fn sink(rng: &mut Rng, tree: &Tree) -> u32 {
    let routers = tree.routers();
    match rng.below(4) {
        0 => 1,
        1 => routers[routers.len() - 1],
        _ => rng.pick(&routers),
    }
}

/// A number that is no router of the tree. Some have a router's number in their lowest 8 or 16 bits.
pub fn no_sink(rng: &mut Rng, tree: &Tree) -> u32 {
    let routers = tree.routers();
    let leaves: Vec<u32> = (1..=tree.parents.len() as u32).filter(|node| !routers.contains(node)).collect();
    let router = rng.pick(&routers);
    match rng.below(8) {
        0 => 0,
        1 => tree.parents.len() as u32 + 1,
        2 => 256 + router,
        3 => 65_536 + router,
        4 => rng.pick(&[255, 256, 9999, 1 << 31, u32::MAX]),
        _ if leaves.is_empty() => 0,
        _ => rng.pick(&leaves),
    }
}

/// One or two settings outside their ranges, or two at odds. Some of them are within their ranges in their lowest bits.
pub fn spoil(rng: &mut Rng, beside: &mut Beside) {
    for _ in 0..rng.pick(&[1, 1, 2]) {
        match rng.below(9) {
            0 => beside.beacon_order = outside(rng, beside.beacon_order, MOST_ORDER),
            1 => beside.superframe_order = outside(rng, beside.superframe_order, MOST_ORDER),
            2 => beside.head = if rng.one_in(3) { rng.below(5) as u32 } else { outside(rng, beside.head, 126) },
            3 => beside.data = if rng.one_in(3) { 0 } else { outside(rng, beside.data, 122) },
            4 => beside.ack = outside(rng, beside.ack, 1),
            5 => {
                beside.beacon_order = rng.range(0, u64::from(MOST_ORDER) - 1) as u32;
                beside.superframe_order = rng.range(u64::from(beside.beacon_order) + 1, u64::from(MOST_ORDER)) as u32;
            }
            6 => beside.loss = outside(rng, beside.loss, MOST_LOSS),
            7 => (beside.ack, beside.loss) = (0, rng.range(1, u64::from(MOST_LOSS)) as u32),
            _ => {
                beside.head = rng.range(6, 126) as u32;
                beside.data = rng.range(128 - u64::from(beside.head), 122) as u32;
            }
        }
    }
}

/// Above the largest value of a range.
fn outside(rng: &mut Rng, value: u32, most: u32) -> u32 {
    let lowest_bits = value % 256;
    match rng.below(6) {
        0 => u32::MAX,
        1 => (1 << 8) + lowest_bits,
        2 => (1 << 16) + lowest_bits,
        3 => (1 << 31) + lowest_bits,
        4 => rng.range(u64::from(most) + 1, 9999) as u32,
        _ => most + 1,
    }
}
