//! Which nodes of a drawn tree sense, and their token buckets.

use crate::rows::{draw_burst, Rng};

/// BURST and RATE of each node; both 0 for a node that does not sense.
pub fn buckets(rng: &mut Rng, parents: &[u32]) -> Vec<(u64, u64)> {
    let senses = draw_sensors(rng, parents);
    let (same_burst, most_rate) = (draw_burst(rng), rng.pick(&[1, 1, 1, 2, 5, 40, 4095]));
    let alike = rng.one_in(2);
    let bucket = |senses: bool| match senses {
        true if alike => (same_burst, 1),
        true => (draw_burst(rng), rng.range(1, most_rate)),
        false => (0, 0),
    };
    senses.into_iter().map(bucket).collect()
}

fn draw_sensors(rng: &mut Rng, parents: &[u32]) -> Vec<bool> {
    let count = parents.len();
    match rng.below(8) {
        0 => vec![true; count],
        1 | 2 => (1..=count as u32).map(|node| !parents.contains(&node)).collect(),
        3 => vec![false; count],
        4 => {
            let sparse = rng.range(2, 40);
            (0..count).map(|_| rng.one_in(sparse)).collect()
        }
        _ => {
            let mut senses = vec![false; count];
            (0..rng.range(1, 9)).for_each(|_| senses[rng.index(count)] = true);
            senses
        }
    }
}
