//! The lists themselves: chains, a bushy tree and stars, of the most nodes and of half as many.

use reference::{Beside, LIST_NAMES, MOST_NODES};

/// All lists have these beside them, but for the sink. A chain's 253 routers have room in 2^8 superframes, and of the
/// orders that leave so many these have the most room for traffic.
pub const SETTINGS: Beside =
    Beside { beacon_order: 14, superframe_order: 6, head: 19, data: 7, ack: 0, sink: 1, loss: 0 };

/// The most nodes, and half as many: a call on these should take about half as long.
const NODES: [u32; 2] = [MOST_NODES as u32, MOST_NODES as u32 / 2];
/// The most reservations of a router.
const SEVEN: u32 = 7;

/// A list and what is given beside it.
pub struct Fixed {
    pub title: &'static str,
    pub list: Vec<u8>,
    pub beside: Beside,
}

impl Fixed {
    /// Its lines but for that of the names.
    pub fn nodes(&self) -> usize {
        self.list.iter().filter(|&&byte| byte == b'\n').count() - 1
    }
}

/// Each shape of the most nodes, then each of half as many.
pub fn lists() -> Vec<Fixed> {
    NODES.into_iter().flat_map(shapes).collect()
}

/// Of so many nodes four lists that are planned, and one with too many reservations at the root.
fn shapes(last: u32) -> [Fixed; 5] {
    let at = |sink, title, list| Fixed { title, list, beside: Beside { sink, ..SETTINGS } };
    let chain = written(last, |node| node - 1, |node| node == last);
    let bushy = written(last, bushy_parent, |node| node > bushy_parent(last));
    let star = |sensors: u32| written(last, |_| 1, |node| node > last - sensors);
    [
        at(1, "chain with a sensor at its far end, sink at the root", chain.clone()),
        at(last / 2, "chain with a sensor at its far end, sink in its middle", chain),
        at(1, "bushy tree of seven children each, all leaves sense", bushy),
        at(1, "star, seven of its leaves sense", star(SEVEN)),
        at(1, "star, all its leaves sense", star(last - 1)),
    ]
}

/// Each router has seven children, from the root on, as far as the nodes go.
fn bushy_parent(node: u32) -> u32 {
    (node - 2) / SEVEN + 1
}

/// The list of so many nodes in which all but the root have these parents, and these sense one frame in each interval.
fn written(last: u32, parent: impl Fn(u32) -> u32, senses: impl Fn(u32) -> bool) -> Vec<u8> {
    let line = |node| {
        let parent = if node == 1 { 0 } else { parent(node) };
        let bucket = u32::from(senses(node));
        format!("{node} {parent} {bucket} {bucket}\n")
    };
    let lines: String = (1..=last).map(line).collect();
    format!("{LIST_NAMES}\n{lines}").into_bytes()
}

#[cfg(test)]
mod tests {
    use super::*;

    /// Node, parent, burst and rate of each node of the list in this place.
    fn values(place: usize) -> Vec<Vec<u32>> {
        let text = String::from_utf8(lists()[place].list.clone()).unwrap();
        let values = |line: &str| line.split(' ').map(|value| value.parse().unwrap()).collect();
        text.lines().skip(1).map(values).collect()
    }

    /// How many nodes have children, the most children of a node, and how many nodes sense.
    fn counts(place: usize) -> (usize, usize, usize) {
        let nodes = values(place);
        let children: Vec<usize> =
            nodes.iter().map(|node| nodes.iter().filter(|child| child[1] == node[0]).count()).collect();
        let routers = children.iter().filter(|&&count| count > 0).count();
        let sensors = nodes.iter().filter(|node| node[2..] == [1, 1]).count();
        (routers, children.into_iter().max().unwrap(), sensors)
    }

    #[test]
    fn lists_have_the_most_nodes_and_half_as_many() {
        let nodes: Vec<usize> = lists().iter().map(Fixed::nodes).collect();
        assert_eq!(nodes, [[254; 5], [127; 5]].concat());
    }

    #[test]
    fn trees_are_as_said() {
        assert_eq!([0, 1, 2, 3, 4].map(counts), [(253, 1, 1), (253, 1, 1), (37, 7, 217), (1, 253, 7), (1, 253, 253)]);
        assert_eq!([5, 6, 7, 8, 9].map(counts), [(126, 1, 1), (126, 1, 1), (18, 7, 109), (1, 126, 7), (1, 126, 126)]);
        assert_eq!([0, 1].map(|place| values(place)[253].clone()), [[254, 253, 1, 1]; 2]);
    }

    #[test]
    fn sinks_are_as_said() {
        let sinks: Vec<u32> = lists().iter().map(|fixed| fixed.beside.sink).collect();
        assert_eq!(sinks, [1, 127, 1, 1, 1, 1, 63, 1, 1, 1]);
    }
}
