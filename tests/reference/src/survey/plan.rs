//! The plan of a surveyed tree: the second walk, which forms bursts, and the lines.

use super::Network;
use crate::air::Reservation;
use crate::{Kind, Line};

/// A node's line: the columns of document 01 and ROUTE.
#[derive(Clone, Copy, Debug, PartialEq, Eq)]
pub struct NodeLine {
    pub line: Line,
    pub route: u64,
}

/// The lines of a surveyed tree in node order.
#[derive(Clone, Debug, PartialEq, Eq)]
pub struct TreePlan {
    pub lines: Vec<NodeLine>,
}

/// Bursts, node by node, where the network keeps condition 7.
///
/// Every sum fits into 64 bits: T < 2^24, rates are below 2^20 and a route has at most 253 links, so that each of the
/// 254 sensors adds less than 255 × 2^24 and on each link of its route less than 2^36.
struct Bursts<'a> {
    network: &'a Network<'a>,
    /// The burst that enters each node.
    entering: Vec<u64>,
}

impl Network<'_> {
    /// The plan of a network that keeps conditions 6, 5 and 7.
    pub(super) fn plan(&self) -> TreePlan {
        let mut bursts = Bursts { network: self, entering: vec![0; self.nodes.len()] };
        bursts.enter(self.sink);
        let line = |node| NodeLine { line: self.line(node, bursts.entering[node]), route: 0 };
        let mut lines: Vec<NodeLine> = (0..self.nodes.len()).map(line).collect();
        self.add_routes(self.sink, &mut lines);
        TreePlan { lines }
    }

    /// ROUTE: the delays of the links from a node to the sink; 0 where nothing enters its link. What is behind such a
    /// link has no traffic either.
    fn add_routes(&self, node: usize, lines: &mut [NodeLine]) {
        for sender in self.senders(node).into_iter().filter(|&sender| self.rates[sender] > 0) {
            lines[sender].route = lines[sender].line.delay + lines[node].route;
            self.add_routes(sender, lines);
        }
    }

    /// A node's line without ROUTE, if this burst enters it.
    fn line(&self, node: usize, burst: u64) -> Line {
        let (kind, depth, rate) = (self.kind(node), self.depth(node), self.rates[node]);
        let without_link = Line { kind, depth, rate, burst, slots: 0, frames: 0, latency: 0, buffer: 0, delay: 0 };
        if kind == Kind::Sink {
            return Line { buffer: burst.div_ceil(self.air.interval), ..without_link };
        }
        if rate == 0 {
            return without_link;
        }
        let reservation = self.reservation(node);
        let Reservation { slots, frames, .. } = reservation;
        let latency = self.air.latency(&reservation);
        let buffer = (burst + rate * latency).div_ceil(self.air.interval);
        let delay = burst.div_ceil(frames) + latency;
        Line { slots, frames, latency, buffer, delay, ..without_link }
    }

    /// "KIND is S for the sink, D where the sink lies below the node, else E for a leaf and U for a router." The sink
    /// lies below a node that does not send to its parent.
    fn kind(&self, node: usize) -> Kind {
        match self.next[node] {
            None => Kind::Sink,
            next if next != self.nodes[node].parent => Kind::Down,
            _ if self.children[node].is_empty() => Kind::EndNode,
            _ => Kind::Up,
        }
    }

    /// The root's depth is 0, and every other node's is one more than its parent's.
    fn depth(&self, node: usize) -> usize {
        self.nodes[node].parent.map_or(0, |parent| 1 + self.depth(parent))
    }
}

impl Bursts<'_> {
    /// The burst that enters a node: that of its own sensor and what has left the links that lead to it.
    fn enter(&mut self, node: usize) -> u64 {
        let sensor = self.network.nodes[node].burst * self.network.air.interval;
        let senders = self.network.senders(node).into_iter();
        let burst = sensor + senders.map(|sender| self.leave(sender)).sum::<u64>();
        self.entering[node] = burst;
        burst
    }

    /// The burst that leaves a node's link; 0 where no traffic enters it, for no burst does then either.
    fn leave(&mut self, node: usize) -> u64 {
        let burst = self.enter(node);
        let reservation = self.network.reservation(node);
        let added = if reservation.rate == 0 { 0 } else { reservation.rate * self.network.air.latency(&reservation) };
        burst + added
    }
}

#[cfg(test)]
mod tests {
    use crate::{plan_tree, write_tree_plan, Beside, LIST_NAMES};

    fn planned(nodes: &[&str], settings: [u32; 6]) -> Vec<String> {
        planned_with(nodes, settings, 0)
    }

    fn planned_with(nodes: &[&str], settings: [u32; 6], loss: u32) -> Vec<String> {
        let [beacon_order, superframe_order, head, data, ack, sink] = settings;
        let list = [&[LIST_NAMES], nodes].concat().join("\n");
        let beside = Beside { beacon_order, superframe_order, head, data, ack, sink, loss };
        let mut text = Vec::new();
        write_tree_plan(&plan_tree(list.as_bytes(), &beside).unwrap(), &mut text);
        let lines: Vec<String> = String::from_utf8(text).unwrap().lines().map(str::to_string).collect();
        assert_eq!(lines[0], "KIND DEPTH RATE BURST SLOTS FRAMES LATENCY BUFFER DELAY ROUTE");
        lines[1..].to_vec()
    }

    fn largest_route(lines: &[String]) -> u64 {
        lines.iter().map(|line| line.rsplit(' ').next().unwrap().parse().unwrap()).max().unwrap()
    }

    /// P1's tree: routers 1 to 3, with an end node each.
    const P1: [&str; 6] = ["1 0 0 0", "2 1 0 0", "3 1 0 0", "4 1 1 1", "5 2 1 1", "6 3 1 1"];

    #[test]
    fn p1() {
        let lines = planned(&P1, [8, 4, 19, 7, 0, 1]);
        assert_eq!(
            lines,
            [
                "S 0 3 1962440 0 0 0 8 0 0",
                "U 1 1 490792 1 9 245032 3 299565 299565",
                "U 1 1 490792 1 9 245032 3 299565 299565",
                "E 1 1 245760 1 9 245032 2 272339 272339",
                "E 2 1 245760 1 9 245032 2 272339 571904",
                "E 2 1 245760 1 9 245032 2 272339 571904",
            ]
        );
        assert_eq!(largest_route(&lines), 571_904);
    }

    #[test]
    fn p2() {
        let lines = planned(&P1, [8, 4, 19, 7, 0, 2]);
        assert_eq!(
            lines,
            [
                "D 0 2 1226616 1 9 245032 7 381323 381323",
                "S 1 3 2207472 0 0 0 9 0 0",
                "U 1 1 490792 1 9 245032 3 299565 680888",
                "E 1 1 245760 1 9 245032 2 272339 653662",
                "E 2 1 245760 1 9 245032 2 272339 272339",
                "E 2 1 245760 1 9 245032 2 272339 953227",
            ]
        );
        assert_eq!(largest_route(&lines), 953_227);
    }

    /// P1's tree acknowledged, with the figures of the row: X = 138, with LOSS 1 an exchange of 296, with LOSS 7 one of
    /// 1,244.
    #[test]
    fn p1_with_failed_tries() {
        let lines = planned_with(&P1, [8, 4, 19, 7, 1, 1], 1);
        let router = "U 1 1 491224 1 3 245464 3 409206 409206";
        let far = "E 2 1 245760 1 3 245464 2 327384 736590";
        let near = "E 1 1 245760 1 3 245464 2 327384 327384";
        assert_eq!(lines, ["S 0 3 1964600 0 0 0 8 0 0", router, router, near, far, far]);
        let lines = planned_with(&P1, [8, 4, 19, 7, 1, 1], 7);
        let router = "U 1 1 492764 2 1 247004 4 739768 739768";
        let far = "E 2 1 245760 2 1 247004 3 492764 1232532";
        let near = "E 1 1 245760 2 1 247004 3 492764 492764";
        assert_eq!(lines, ["S 0 3 1972300 0 0 0 9 0 0", router, router, near, far, far]);
    }

    /// BI = 7680, S = 120, X = 60: k = 1 holds 2 frames with T = BI, and k = 2 holds 4 with T = BI − 120 = 7560. The
    /// sink is node 5; nodes 1 and 2 send down. Node 1 sends its own 2 × 7680, of which 23040 arrive; node 3's 7680
    /// with rate 2 arrive as 23040. So 46080 enter node 2's link at rate 3 and leave it as 46080 + 3 × 7560 = 68760.
    /// The sink has 23040 of its own, these, and 15360 from node 6. Node 4 does not sense.
    #[test]
    fn an_uneven_tree() {
        let nodes = ["1 0 2 1", "2 1 0 0", "3 2 1 2", "4 1 0 0", "5 2 3 1", "6 5 1 1"];
        assert_eq!(
            planned(&nodes, [3, 1, 5, 13, 0, 5]),
            [
                "D 0 1 15360 1 2 7680 3 15360 34440",
                "D 1 3 46080 2 4 7560 9 19080 19080",
                "E 2 2 7680 1 2 7680 3 11520 30600",
                "E 1 0 0 0 0 0 0 0 0",
                "S 2 5 107160 0 0 0 14 0 0",
                "E 3 1 7680 1 2 7680 2 11520 11520",
            ]
        );
    }

    /// The same tree with its sink at the root. Node 5 gets 23040 of its own and 15360 from node 6, and its link leaves
    /// 38400 + 2 × 7680 = 53760; with node 3's 23040 that is 76800 at rate 4 for node 2, whose k = 2 hold 4. Node 2's
    /// link leaves 76800 + 4 × 7560 = 107040, and the root adds its own 15360.
    #[test]
    fn an_uneven_tree_with_its_sink_at_the_root() {
        let nodes = ["1 0 2 1", "2 1 0 0", "3 2 1 2", "4 1 0 0", "5 2 3 1", "6 5 1 1"];
        assert_eq!(
            planned(&nodes, [3, 1, 5, 13, 0, 1]),
            [
                "S 0 5 122400 0 0 0 16 0 0",
                "U 1 4 76800 2 4 7560 14 26760 26760",
                "E 2 2 7680 1 2 7680 3 11520 38280",
                "E 1 0 0 0 0 0 0 0 0",
                "U 2 2 38400 1 2 7680 7 26880 53640",
                "E 3 1 7680 1 2 7680 2 11520 65160",
            ]
        );
    }

    /// "Links with rate 0 get no reservation, and zeros after DEPTH": also a router's, upward or downward, and ROUTE,
    /// although frames of other nodes go along a part of the route.
    #[test]
    fn silent_links() {
        let nodes = ["1 0 0 0", "2 1 0 0", "3 2 0 0", "4 1 0 0", "5 2 1 1"];
        assert_eq!(
            planned(&nodes, [2, 1, 5, 13, 0, 2]),
            ["D 0 0 0 0 0 0 0 0 0", "S 1 1 7680 0 0 0 2 0 0", "E 2 0 0 0 0 0 0 0 0", "E 1 0 0 0 0 0 0 0 0"]
                .into_iter()
                .chain(["E 2 1 3840 1 2 3840 2 5760 5760"])
                .collect::<Vec<_>>()
        );
        let above = planned(&nodes, [2, 1, 5, 13, 0, 1]);
        assert_eq!(above[1], "U 1 1 7680 1 2 3840 3 7680 7680");
        assert_eq!(above[2], "E 2 0 0 0 0 0 0 0 0");
    }

    #[test]
    fn no_sensor_at_all() {
        let nodes = ["1 0 0 0", "2 1 0 0", "3 2 0 0", "4 3 0 0"];
        let kinds = |sink| planned(&nodes, [14, 0, 126, 1, 1, sink]);
        let zeros = |front: [&str; 4]| front.map(|front| format!("{front} 0 0 0 0 0 0 0 0"));
        assert_eq!(kinds(1), zeros(["S 0", "U 1", "U 2", "E 3"]));
        assert_eq!(kinds(2), zeros(["D 0", "S 1", "U 2", "E 3"]));
        assert_eq!(kinds(3), zeros(["D 0", "D 1", "S 2", "E 3"]));
    }

    /// The root alone is the sink and has no link, whatever it makes.
    #[test]
    fn one_node() {
        assert_eq!(planned(&["1 0 0 0"], [0, 0, 5, 1, 0, 1]), ["S 0 0 0 0 0 0 0 0 0"]);
        assert_eq!(planned(&["1 0 255 4095"], [0, 0, 5, 1, 0, 1]), ["S 0 4095 244800 0 0 0 255 0 0"]);
    }

    /// The longest route: 253 links upward, each with rate 1, for which a slot holds 106 frames.
    #[test]
    fn the_longest_chain() {
        let nodes: Vec<String> = (1..=254).map(|node| format!("{node} {} 0 0", node - 1)).collect();
        let mut nodes: Vec<&str> = nodes.iter().map(String::as_str).collect();
        nodes[253] = "254 253 1 1";
        let lines = planned(&nodes, [14, 6, 5, 1, 0, 1]);
        let (interval, frames) = (960_u64 << 14, (60 << 6) / 36);
        let latency = interval + 2 * 36 - frames * 36;
        let delay = |link: u64| (interval + link * latency).div_ceil(frames) + latency;
        assert_eq!(lines[253].split(' ').nth(1), Some("253"));
        assert_eq!(lines[253].split(' ').nth(8), Some(&delay(0).to_string()[..]));
        assert_eq!(lines[1].split(' ').nth(8), Some(&delay(252).to_string()[..]));
        assert_eq!(largest_route(&lines), (0..253).map(delay).sum());
    }
}
