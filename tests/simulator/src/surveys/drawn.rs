//! Surveyed trees that are drawn.

use super::figures::{self, Answer, Version};
use super::survey::{Node, Survey};
use crate::chance::Chance;

/// The most nodes of a list.
const NODES: usize = 254;
/// About the most frames of all bursts of a tree together.
const BURSTS: u64 = 1_500;

/// A tree that is planned.
pub fn planned(chance: &mut Chance) -> Survey {
    loop {
        let survey = any(chance);
        if matches!(figures::answer(&survey, Version::Right), Answer::Plan(_)) {
            return survey;
        }
    }
}

/// Any tree, with settings in their ranges that mostly have room for its routers.
pub fn any(chance: &mut Chance) -> Survey {
    let parents = parents(chance);
    let nodes = with_buckets(&parents, chance);
    let routers: Vec<usize> = (0..nodes.len()).filter(|node| *node == 0 || parents.contains(&Some(*node))).collect();
    let room = u64::from((routers.len() as u64).next_power_of_two().trailing_zeros());
    let so = if chance.once_in(2) { chance.up_to(14 - room) } else { 14 - room };
    let bo = so + room + if chance.once_in(2) { 0 } else { chance.up_to(14 - so - room) };
    let octets = if chance.once_in(2) { [6, 18, 19, 26][chance.index(4)] } else { 6 + chance.up_to(121) };
    let least = 5.max(octets.saturating_sub(122));
    let head = least + chance.up_to(octets - 1 - least);
    let sink = if chance.once_in(3) { 0 } else { routers[chance.index(routers.len())] };
    let ack = chance.up_to(1);
    let loss = if ack == 1 && !chance.once_in(3) { 1 + chance.up_to(6) } else { 0 };
    Survey { bo, so, head, data: octets - head, ack, sink, loss, nodes }
}

/// Chains, stars, combs, bushy and arbitrary trees; most of them small, some with all nodes that a list
/// may have.
fn parents(chance: &mut Chance) -> Vec<Option<usize>> {
    let count = match chance.up_to(9) {
        0 => NODES,
        1 => 1 + chance.index(NODES),
        2 | 3 => 1 + chance.index(60),
        _ => 1 + chance.index(14),
    };
    let (kind, width) = (chance.up_to(5), 1 + chance.index(7));
    let mut parents = vec![None];
    let mut children = vec![0; count];
    while parents.len() < count {
        let node = parents.len();
        let parent = match kind {
            0 => node - 1,
            1 => 0,
            2 => (node - 1) / width * width,
            3 => node - 1 - chance.index(node.min(4)),
            _ => chance.index(node),
        };
        // All but stars keep to 7 children, so that most trees keep check 5.
        if kind == 1 || children[parent] < 7 {
            children[parent] += 1;
            parents.push(Some(parent));
        }
    }
    parents
}

/// Some nodes sense, each with its own bucket.
fn with_buckets(parents: &[Option<usize>], chance: &mut Chance) -> Vec<Node> {
    let sensors = match chance.up_to(3) {
        0 => vec![true; parents.len()],
        1 => (0..parents.len()).map(|node| !parents.contains(&Some(node))).collect(),
        2 => parents.iter().map(|_| chance.once_in(3)).collect(),
        _ => (0..parents.len()).map(|_| chance.once_in(parents.len() as u64)).collect::<Vec<bool>>(),
    };
    let most_burst = (BURSTS / parents.len() as u64).clamp(1, 255);
    let most_rate = [1, 1, 3, 30][chance.index(4)];
    let node = |(parent, senses): (&Option<usize>, bool)| {
        let burst = if chance.once_in(2) { 1 } else { 1 + chance.up_to(most_burst - 1) };
        let rate = 1 + chance.up_to(most_rate - 1);
        let [burst, rate] = if senses { [burst, rate] } else { [0, 0] };
        Node { parent: *parent, burst, rate }
    };
    parents.iter().zip(sensors).map(node).collect()
}

#[cfg(test)]
mod tests {
    use super::*;
    use std::collections::BTreeMap;

    /// What is drawn can be read back; it is planned and refused in all ways, with sinks at and below the
    /// root, and with traffic whose tries may fail.
    #[test]
    fn of_all_kinds() {
        let mut chance = Chance::new(61);
        let mut answers: BTreeMap<u64, u64> = BTreeMap::new();
        let (mut below, mut silent, mut lossy) = (0, 0, 0);
        for _ in 0..2_000 {
            let survey = any(&mut chance);
            assert_eq!(Survey::read(&survey.list(), &survey.settings()), Ok(survey.clone()));
            assert!(survey.head >= 5 && survey.head + survey.data <= 127 && survey.data >= 1 && survey.data <= 122);
            let number = match figures::answer(&survey, Version::Right) {
                Answer::Plan(lines) => {
                    below += u64::from(survey.sink > 0);
                    silent += u64::from(lines.iter().any(|line| line.line.rate == 0));
                    lossy += u64::from(survey.loss > 0 && lines.iter().any(|line| line.line.frames > 0));
                    0
                }
                Answer::Refused(number, _) => number,
            };
            *answers.entry(number).or_default() += 1;
        }
        assert!([0, 5, 7].iter().all(|number| answers[number] > 50), "{answers:?}");
        assert!(below > 200 && silent > 100 && lossy > 100, "{below} {silent} {lossy}");
    }
}
