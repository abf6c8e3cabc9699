//! Node lists for tests, with what is given beside them (request E3 of document 02), drawn at random from a seed: trees
//! of every shape with their sinks anywhere, planned and refused with every number, on both sides of each limit, and
//! damaged lists.

mod arguments;
mod beside;
mod damaged;
mod edges;
mod reach;
mod sensors;
mod shapes;

pub use arguments::{input, Input};
pub use reach::TreeSeen;

use crate::rows::Rng;
use crate::{Beside, LIST_NAMES};

/// A list and what is given beside it.
#[derive(Clone, Debug)]
pub struct Drawn {
    pub list: Vec<u8>,
    pub beside: Beside,
}

/// A tree before it is written: each node's parent, by number and 0 for the root, and its BURST and RATE.
#[derive(Clone)]
struct Tree {
    parents: Vec<u32>,
    buckets: Vec<(u64, u64)>,
}

/// A list that may be of any kind.
pub fn draw(rng: &mut Rng) -> Drawn {
    match rng.below(100) {
        0..=51 => fitting(rng),
        52..=54 => edges::silent_star(rng),
        55..=59 => {
            let tree = tree(rng);
            let beside = beside::anything_in_range(rng, &tree);
            Drawn { list: written(&tree), beside }
        }
        60..=69 => {
            let mut drawn = fitting(rng);
            beside::spoil(rng, &mut drawn.beside);
            drawn
        }
        70..=73 => {
            let tree = tree(rng);
            let mut beside = beside::fitting(rng, &tree);
            beside.sink = beside::no_sink(rng, &tree);
            Drawn { list: written(&tree), beside }
        }
        _ => damaged::damaged(rng),
    }
}

/// A list that keeps every rule, with settings that have room for its routers. Half of them have rates at the edge of
/// condition 7.
fn fitting(rng: &mut Rng) -> Drawn {
    let mut tree = tree(rng);
    let beside = beside::fitting(rng, &tree);
    if rng.one_in(2) {
        edges::to_edge(rng, &mut tree, &beside);
    }
    Drawn { list: written(&tree), beside }
}

fn tree(rng: &mut Rng) -> Tree {
    let parents = shapes::parents(rng);
    let buckets = sensors::buckets(rng, &parents);
    Tree { parents, buckets }
}

impl Tree {
    /// The numbers of the routers: node 1 and those with children.
    fn routers(&self) -> Vec<u32> {
        (1..=self.parents.len() as u32).filter(|&node| node == 1 || self.parents.contains(&node)).collect()
    }

    fn lines(&self) -> Vec<String> {
        let nodes = self.parents.iter().zip(&self.buckets);
        (1..).zip(nodes).map(|(node, (parent, (burst, rate)))| format!("{node} {parent} {burst} {rate}")).collect()
    }
}

/// The list's text. One size in five goes without its last LF.
fn written(tree: &Tree) -> Vec<u8> {
    let mut list = joined(tree.lines().into_iter().map(String::into_bytes));
    if tree.parents.len() % 5 == 4 {
        list.pop();
    }
    list
}

/// The line of names and these lines, each ended by LF.
fn joined(lines: impl Iterator<Item = Vec<u8>>) -> Vec<u8> {
    let mut list = format!("{LIST_NAMES}\n").into_bytes();
    for line in lines {
        list.extend(line);
        list.push(b'\n');
    }
    list
}

#[cfg(test)]
mod tests {
    use super::*;
    use crate::{plan_tree, plan_tree_checking, read_reason, tree_line_of, Superframe, MOST_NODES};
    use std::cell::RefCell;

    #[test]
    fn the_same_seed_draws_the_same() {
        let drawn = |seed| draw(&mut Rng::new(seed));
        assert_eq!((drawn(5).list, drawn(5).beside), (drawn(5).list, drawn(5).beside));
        assert_ne!((drawn(5).list, drawn(5).beside), (drawn(6).list, drawn(6).beside));
    }

    #[test]
    fn everything_is_drawn() {
        let mut rng = Rng::new(31);
        let mut seen = TreeSeen::default();
        for _ in 0..20_000 {
            let Drawn { list, beside } = draw(&mut rng);
            seen.note(&beside, &plan_tree(&list, &beside));
        }
        println!("{seen}");
        assert_eq!(seen.missing(), Vec::<String>::new());
        assert!(seen.planned() > 4_000 && seen.refused() > 8_000, "{seen}");
    }

    /// Both sides of conditions 5, 6 and 7.
    #[test]
    fn both_sides_of_every_limit_are_drawn() {
        let mut rng = Rng::new(32);
        let mut counts = [0; 6];
        for _ in 0..10_000 {
            let met = limits(&draw(&mut rng));
            counts.iter_mut().zip(met).for_each(|(count, met)| *count += u32::from(met));
        }
        assert!(counts.iter().all(|&count| count >= 50), "{counts:?}");
    }

    /// Whether some router has 7 reservations, 8, just the slots that it may reserve, and one more; and whether there
    /// are just as many routers as superframes, and one more. A list that is refused for itself or its settings has none
    /// of these.
    fn limits(drawn: &Drawn) -> [bool; 6] {
        let superframes = RefCell::new(Vec::new());
        let _ = plan_tree_checking(&drawn.list, &drawn.beside, |network| {
            *superframes.borrow_mut() = network.superframes(&network.links());
            network.check()
        });
        let superframes = superframes.into_inner();
        let any = |met: fn(&Superframe) -> bool| superframes.iter().any(met);
        let gap = drawn.beside.beacon_order.wrapping_sub(drawn.beside.superframe_order);
        let most = 1_usize.checked_shl(gap).filter(|_| !superframes.is_empty()).unwrap_or(usize::MAX - 1);
        [
            any(|superframe| superframe.reservations == 7),
            any(|superframe| superframe.reservations == 8),
            any(|superframe| superframe.used == superframe.reservable),
            any(|superframe| superframe.used == superframe.reservable + 1),
            superframes.len() == most,
            superframes.len() == most + 1,
        ]
    }

    #[test]
    fn refusals_read_back() {
        let mut rng = Rng::new(33);
        for _ in 0..5_000 {
            let Drawn { list, beside } = draw(&mut rng);
            let outcome = plan_tree(&list, &beside);
            let line = tree_line_of(&outcome);
            assert_eq!(read_reason(line.as_bytes()), outcome.err().map(|refusal| (refusal.number, refusal.place)));
        }
    }

    #[test]
    fn trees_have_1_to_254_nodes() {
        let mut rng = Rng::new(34);
        let sizes: Vec<usize> = (0..2_000).map(|_| tree(&mut rng).parents.len()).collect();
        assert!(sizes.iter().all(|size| (1..=MOST_NODES).contains(size)));
        assert!([1, 2, 3, 253, 254].iter().all(|size| sizes.contains(size)));
    }
}
