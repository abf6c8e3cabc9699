//! Rates at the edge of condition 7.

use super::{beside, written, Drawn, Tree};
use crate::rows::{largest, Rng};
use crate::{plan_tree, Beside};

const MOST_RATE: u64 = 4095;

/// Gives one sensor of a planned tree the largest RATE with which the tree is planned, or one more. A tree that is not
/// planned, or that has no sensor, stays as it is.
pub fn to_edge(rng: &mut Rng, tree: &mut Tree, beside: &Beside) {
    let sensors: Vec<usize> = (0..tree.buckets.len()).filter(|&node| tree.buckets[node].1 > 0).collect();
    if sensors.is_empty() || !plans(tree, beside) {
        return;
    }
    let sensor = rng.pick(&sensors);
    let with = |rate| {
        let mut tree = tree.clone();
        tree.buckets[sensor].1 = rate;
        tree
    };
    let most = largest(tree.buckets[sensor].1, MOST_RATE, |rate| plans(&with(rate), beside));
    *tree = with(MOST_RATE.min(most + rng.below(2)));
}

/// A star with many links without traffic, at an order at which a beacon that counted them would take a slot more, and
/// with rates at the edge.
pub fn silent_star(rng: &mut Rng) -> Drawn {
    let (order, fewest) = rng.pick(&[(0, 12), (1, 22), (2, 42), (3, 82), (4, 82)]);
    let leaves = rng.range(fewest, 253) as usize;
    let mut tree = Tree { parents: vec![1; leaves + 1], buckets: vec![(0, 0); leaves + 1] };
    tree.parents[0] = 0;
    for _ in 0..rng.range(1, 4) {
        tree.buckets[1 + rng.index(leaves)] = (rng.range(1, 255), 1);
    }
    let mut beside = beside::fitting(rng, &tree);
    beside.beacon_order = beside.beacon_order.max(order);
    beside.superframe_order = order;
    to_edge(rng, &mut tree, &beside);
    Drawn { list: written(&tree), beside }
}

fn plans(tree: &Tree, beside: &Beside) -> bool {
    plan_tree(&written(tree), beside).is_ok()
}
