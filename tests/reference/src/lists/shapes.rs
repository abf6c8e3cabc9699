//! Shapes of trees: each node's parent, by number, and 0 for node 1.

use crate::rows::Rng;
use crate::MOST_NODES;

/// The parent of a node that is not the root.
type Parent = Box<dyn Fn(&mut Rng, u32) -> u32>;

/// Any shape, of 1 to 254 nodes.
pub fn parents(rng: &mut Rng) -> Vec<u32> {
    let count = draw_count(rng);
    let parent: Parent = match rng.below(8) {
        0 => Box::new(|_, node| node - 1),
        1 => Box::new(|_, _| 1),
        2 => Box::new(|rng, node| rng.range(1, u64::from(node) - 1) as u32),
        3 => Box::new(|rng, node| near(rng, node, 4)),
        4 => comb(rng),
        5 => broom(rng, count),
        _ => return bushy(rng, count),
    };
    (1..=count).map(|node| if node == 1 { 0 } else { parent(rng, node) }).collect()
}

/// A number of nodes, often a small one or one of the largest.
fn draw_count(rng: &mut Rng) -> u32 {
    let most = MOST_NODES as u64;
    let count = match rng.below(8) {
        0 => rng.range(1, 3),
        1 => rng.range(most - 1, most),
        2 => rng.range(1, most),
        3 => rng.range(1, 60),
        _ => rng.range(2, 20),
    };
    count as u32
}

/// One of the nodes just before this one: a long, thin tree.
fn near(rng: &mut Rng, node: u32, reach: u32) -> u32 {
    node - 1 - rng.below(u64::from(reach.min(node - 1))) as u32
}

/// A chain of every so many nodes, with leaves on it.
fn comb(rng: &mut Rng) -> Parent {
    let teeth = rng.range(2, 8) as u32;
    Box::new(move |_, node| (node - 2) / teeth * teeth + 1)
}

/// A chain with leaves at its end.
fn broom(rng: &mut Rng, count: u32) -> Parent {
    let handle = rng.range(1, u64::from(count)) as u32;
    Box::new(move |_, node| (node - 1).min(handle))
}

/// A tree in which no node has more than so many children.
fn bushy(rng: &mut Rng, count: u32) -> Vec<u32> {
    let most = rng.range(2, 8) as usize;
    let mut parents = vec![0];
    let mut children = vec![0; count as usize + 1];
    while parents.len() < count as usize {
        let parent = rng.range(1, parents.len() as u64) as usize;
        if children[parent] < most {
            children[parent] += 1;
            parents.push(parent as u32);
        }
    }
    parents
}

#[cfg(test)]
mod tests {
    use super::*;

    #[test]
    fn every_parent_has_a_smaller_number() {
        let mut rng = Rng::new(41);
        for _ in 0..2_000 {
            let parents = parents(&mut rng);
            assert_eq!(parents[0], 0);
            assert!((2..).zip(&parents[1..]).all(|(node, parent)| (1..node).contains(parent)));
        }
    }

    /// Chains, stars and trees between them.
    #[test]
    fn shapes_are_of_all_kinds() {
        let mut rng = Rng::new(42);
        let drawn: Vec<Vec<u32>> = (0..500).map(|_| parents(&mut rng)).filter(|parents| parents.len() > 50).collect();
        let routers = |parents: &[u32]| (1..=parents.len() as u32).filter(|node| parents.contains(node)).count();
        assert!(drawn.iter().any(|parents| routers(parents) == 1));
        assert!(drawn.iter().any(|parents| routers(parents) + 1 == parents.len()));
        assert!(drawn.iter().any(|parents| (10..parents.len() - 10).contains(&routers(parents))));
    }
}
