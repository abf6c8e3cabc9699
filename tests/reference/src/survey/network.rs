//! The routes of a surveyed tree to its sink, the rates and reservations of its links, and conditions 6, 5 and 7.

use super::list::Node;
use crate::air::{self, Air, Reservation};
use crate::settings::Settings;
use crate::{Phrase, Refusal};

/// Reservations of a router's superframe.
const MOST_RESERVATIONS: u64 = 7;

/// A surveyed tree whose links all lead towards the sink.
pub struct Network<'a> {
    pub(super) nodes: &'a [Node],
    pub(super) sink: usize,
    pub(super) air: Air,
    settings: &'a Settings,
    pub(super) children: Vec<Vec<usize>>,
    /// The neighbour that each node sends to; none at the sink.
    pub(super) next: Vec<Option<usize>>,
    /// The rate that enters each node and so its link, in frames per BI.
    pub(super) rates: Vec<u64>,
}

/// A link, with nodes by their numbers. One with rate 0 has no reservation.
#[derive(Clone, Copy, Debug, PartialEq, Eq)]
pub struct TreeLink {
    pub from: u32,
    pub to: u32,
    /// The router in whose superframe the link lies.
    pub superframe: u32,
    pub rate: u64,
    pub slots: u64,
}

/// What conditions 5 and 7 compare of one router's superframe.
#[derive(Clone, Copy, Debug, PartialEq, Eq)]
pub struct Superframe {
    pub router: u32,
    /// The reservations in it, which are g of request E2 as well.
    pub reservations: u64,
    /// The slots of these reservations.
    pub used: u64,
    /// L of request E2.
    pub reservable: u64,
}

impl<'a> Network<'a> {
    /// Finds the routes and the rates. These are at most 254 × 4095.
    pub(super) fn new(nodes: &'a [Node], sink: usize, settings: &'a Settings) -> Network<'a> {
        let Settings { beacon_order, superframe_order, octets, acknowledged, loss, .. } = *settings;
        let air = Air::new(beacon_order, superframe_order, octets, acknowledged, loss);
        let mut children = vec![Vec::new(); nodes.len()];
        for (node, parent) in nodes.iter().enumerate().filter_map(|(node, line)| Some((node, line.parent?))) {
            children[parent].push(node);
        }
        let (next, rates) = (vec![None; nodes.len()], vec![0; nodes.len()]);
        let mut network = Network { nodes, sink, air, settings, children, next, rates };
        network.enter(sink, None);
        network
    }

    /// "A router's input is its own sensor and its neighbours' output; a neighbour's output comes from that one's
    /// input." Goes away from the sink: a node sends to the neighbour that it is reached from, and gets what all its
    /// other neighbours send. Returns the rate that enters it, which is also the rate that leaves its link.
    fn enter(&mut self, node: usize, from: Option<usize>) -> u64 {
        self.next[node] = from;
        let senders = self.senders(node).into_iter();
        let rate = self.nodes[node].rate + senders.map(|sender| self.enter(sender, Some(node))).sum::<u64>();
        self.rates[node] = rate;
        rate
    }

    /// The neighbours, parent or children, but the one that the node sends to.
    pub(super) fn senders(&self, node: usize) -> Vec<usize> {
        let neighbours = self.nodes[node].parent.into_iter().chain(self.children[node].iter().copied());
        neighbours.filter(|&neighbour| Some(neighbour) != self.next[node]).collect()
    }

    /// The reservation for what enters a node.
    pub(super) fn reservation(&self, node: usize) -> Reservation {
        self.air.reserve(self.rates[node])
    }

    /// The routers, from the lowest number on.
    fn routers(&self) -> impl Iterator<Item = usize> + '_ {
        (0..self.nodes.len()).filter(|&node| node == 0 || !self.children[node].is_empty())
    }

    /// SO.
    pub fn superframe_order(&self) -> u64 {
        self.settings.superframe_order
    }

    /// All links in the order of the nodes that send. A link "lies in the parent's superframe": that of the parent of
    /// its two ends, so that a downward one lies in its sender's own.
    pub fn links(&self) -> Vec<TreeLink> {
        let link = |(node, next): (usize, &Option<usize>)| {
            let next = (*next)?;
            let superframe = if self.nodes[node].parent == Some(next) { next } else { node };
            let [from, to, superframe] = [node, next, superframe].map(|node| node as u32 + 1);
            Some(TreeLink { from, to, superframe, rate: self.rates[node], slots: self.reservation(node).slots })
        };
        self.next.iter().enumerate().filter_map(link).collect()
    }

    /// The superframes of all routers, from the lowest number on, if these links are the network's. "Links with rate 0
    /// get no reservation."
    pub fn superframes(&self, links: &[TreeLink]) -> Vec<Superframe> {
        let mut slots = vec![Vec::new(); self.nodes.len()];
        for link in links.iter().filter(|link| link.rate > 0) {
            slots[link.superframe as usize - 1].push(link.slots);
        }
        let superframe = |router: usize| {
            let reservations = slots[router].len() as u64;
            let reservable = air::reservable(self.superframe_order(), reservations);
            Superframe { router: router as u32 + 1, reservations, used: slots[router].iter().sum(), reservable }
        };
        self.routers().map(superframe).collect()
    }

    /// Conditions 6, 5 and 7: "then 6; then, router by router from the lowest number, 5 and 7".
    pub fn check(&self) -> Result<(), Refusal> {
        self.check_routers()?;
        let superframes = self.superframes(&self.links());
        let refusal = superframes.iter().find_map(|superframe| superframe.too_many().or(superframe.too_full()));
        refusal.map_or(Ok(()), Err)
    }

    /// Condition 6.
    pub fn check_routers(&self) -> Result<(), Refusal> {
        let routers = self.routers().count() as u64;
        let superframes = 1 << (self.settings.beacon_order - self.settings.superframe_order);
        if routers > superframes {
            return Err(Refusal::new(Phrase::Routers, 0, [routers, superframes]));
        }
        Ok(())
    }
}

impl Superframe {
    /// Condition 5 fails.
    pub fn too_many(&self) -> Option<Refusal> {
        let refusal = Refusal::new(Phrase::RouterReservations, self.router, [self.reservations, 0]);
        (self.reservations > MOST_RESERVATIONS).then_some(refusal)
    }

    /// Condition 7 fails.
    pub fn too_full(&self) -> Option<Refusal> {
        let refusal = Refusal::new(Phrase::RouterSlots, self.router, [self.used, self.reservable]);
        (self.used > self.reservable).then_some(refusal)
    }
}

#[cfg(test)]
mod tests {
    use crate::survey::{list, plan_tree_checking, settle};
    use crate::{plan_tree, Beside, Superframe, LIST_NAMES};

    /// X = S = 60: a link has as many slots as its rate. A router with reservations may reserve 7.
    const EVEN: Beside = Beside { beacon_order: 8, superframe_order: 0, head: 17, data: 1, ack: 0, sink: 1, loss: 0 };

    /// The list of nodes of these parents and rates; the bursts are 1.
    fn list(nodes: &[(u32, u32)]) -> Vec<u8> {
        let line = |(number, (parent, rate)): (usize, &(u32, u32))| {
            format!("\n{} {parent} {} {rate}", number + 1, u32::from(*rate > 0))
        };
        [LIST_NAMES.to_string(), nodes.iter().enumerate().map(line).collect()].concat().into_bytes()
    }

    /// Number, place and values of the refusal.
    fn refusal(nodes: &[(u32, u32)], beside: Beside) -> Option<(u32, u32, [u64; 2])> {
        plan_tree(&list(nodes), &beside).err().map(|refusal| (refusal.number, refusal.place, refusal.values))
    }

    fn superframes(nodes: &[(u32, u32)], beside: Beside) -> Vec<(u32, u64, u64, u64)> {
        let nodes = list::read(&list(nodes)).unwrap();
        let settings = settle(&beside).ok().unwrap();
        let network = super::Network::new(&nodes, beside.sink as usize - 1, &settings);
        let figures = |superframe: &Superframe| {
            let Superframe { router, reservations, used, reservable } = *superframe;
            (router, reservations, used, reservable)
        };
        network.superframes(&network.links()).iter().map(figures).collect()
    }

    /// So many leaves with this rate behind the nodes that are given, all on one router.
    fn with_leaves(nodes: &[(u32, u32)], router: u32, count: usize, rate: u32) -> Vec<(u32, u32)> {
        [nodes, &vec![(router, rate); count]].concat()
    }

    /// A chain of three routers, node 1 to 3, with a leaf on each: nodes 4 to 6. Towards the root a link lies in the
    /// superframe of its receiver, away from the root in that of its sender.
    #[test]
    fn superframes_by_the_place_of_the_sink() {
        let nodes = [(0, 0), (1, 0), (2, 0), (1, 1), (2, 1), (3, 1)];
        let with_sink = |sink| superframes(&nodes, Beside { sink, ..EVEN });
        assert_eq!(with_sink(1), [(1, 2, 1 + 2, 7), (2, 2, 1 + 1, 7), (3, 1, 1, 7)]);
        assert_eq!(with_sink(2), [(1, 2, 1 + 1, 7), (2, 2, 1 + 1, 7), (3, 1, 1, 7)]);
        assert_eq!(with_sink(3), [(1, 2, 1 + 1, 7), (2, 2, 1 + 2, 7), (3, 1, 1, 7)]);
    }

    /// Node 2 is a router although nothing behind it senses; its superframe has no reservations and L(0, 0) is 8.
    #[test]
    fn silent_links_have_no_reservation() {
        let nodes = [(0, 1), (1, 0), (2, 0), (2, 0), (1, 3)];
        assert_eq!(superframes(&nodes, EVEN), [(1, 1, 3, 7), (2, 0, 0, 8)]);
        let below = superframes(&nodes, Beside { sink: 2, ..EVEN });
        assert_eq!(below, [(1, 2, 3 + 4, 7), (2, 0, 0, 8)]);
    }

    #[test]
    fn condition_6() {
        let nodes = [(0, 0), (1, 0), (2, 1), (1, 0), (4, 1)];
        let with_gap = |gap| refusal(&nodes, Beside { beacon_order: gap, ..EVEN });
        assert_eq!(with_gap(2), None);
        assert_eq!(with_gap(1), Some((6, 0, [3, 2])));
        assert_eq!(refusal(&[(0, 1), (1, 1)], Beside { beacon_order: 0, ..EVEN }), None, "one router");
        assert_eq!(refusal(&[(0, 1)], Beside { beacon_order: 0, ..EVEN }), None, "the root alone");
    }

    /// A chain of 254 nodes has 253 routers, at most 2^8.
    #[test]
    fn condition_6_of_the_longest_chain() {
        let chain: Vec<(u32, u32)> = (0..254).map(|parent| (parent, u32::from(parent == 253))).collect();
        assert_eq!(refusal(&chain, EVEN), None);
        assert_eq!(refusal(&chain, Beside { beacon_order: 7, ..EVEN }), Some((6, 0, [253, 128])));
    }

    #[test]
    fn condition_5() {
        let wide = Beside { superframe_order: 4, ..EVEN };
        assert_eq!(refusal(&with_leaves(&[(0, 0)], 1, 7, 1), wide), None);
        assert_eq!(refusal(&with_leaves(&[(0, 0)], 1, 8, 1), wide), Some((5, 1, [8, 0])));
        assert_eq!(refusal(&with_leaves(&[(0, 0)], 1, 253, 1), wide), Some((5, 1, [253, 0])));
        assert_eq!(refusal(&with_leaves(&[(0, 1)], 1, 253, 0), wide), None, "silent links do not count");
        let mixed = with_leaves(&with_leaves(&[(0, 0)], 1, 100, 0), 1, 7, 1);
        assert_eq!(refusal(&mixed, wide), None);
        assert_eq!(refusal(&with_leaves(&mixed, 1, 1, 1), wide), Some((5, 1, [8, 0])));
        let below = with_leaves(&[(0, 0), (1, 0), (1, 0)], 3, 9, 1);
        assert_eq!(refusal(&below, wide), Some((5, 3, [9, 0])));
    }

    /// The downward link takes the place of the upward one: with 7 children the root has 7 reservations wherever the
    /// sink is, and the sink's superframe has none for the link from above.
    #[test]
    fn condition_5_on_the_path() {
        let wide = Beside { superframe_order: 4, ..EVEN };
        let seven = with_leaves(&[(0, 1), (1, 1), (2, 1)], 1, 6, 1);
        for sink in [1, 2] {
            assert_eq!(refusal(&seven, Beside { sink, ..wide }), None);
            assert_eq!(refusal(&with_leaves(&seven, 1, 1, 1), Beside { sink, ..wide }), Some((5, 1, [8, 0])));
        }
        let at_sink = with_leaves(&[(0, 1), (1, 1)], 2, 7, 1);
        assert_eq!(refusal(&at_sink, Beside { sink: 2, ..wide }), None);
        assert_eq!(refusal(&with_leaves(&at_sink, 2, 1, 1), Beside { sink: 2, ..wide }), Some((5, 2, [8, 0])));
    }

    #[test]
    fn condition_7() {
        assert_eq!(refusal(&[(0, 4095), (1, 7)], EVEN), None);
        assert_eq!(refusal(&[(0, 4095), (1, 8)], EVEN), Some((7, 1, [8, 7])));
        assert_eq!(refusal(&[(0, 0), (1, 3), (1, 4)], EVEN), None);
        assert_eq!(refusal(&[(0, 0), (1, 3), (1, 5)], EVEN), Some((7, 1, [8, 7])));
    }

    /// L by the router's own count, at the orders at which the beacon counts and at one at which it does not: so many
    /// frames just fit into 7, 11, 13, 14 and 15 slots of 1, 2, 4, 8 and 16 exchanges each.
    #[test]
    fn condition_7_by_order() {
        for (superframe_order, most, slots) in [(0, 7, 7), (1, 22, 11), (2, 52, 13), (3, 112, 14), (4, 240, 15)] {
            let beside = Beside { superframe_order, ..EVEN };
            assert_eq!(refusal(&[(0, 0), (1, most)], beside), None);
            assert_eq!(refusal(&[(0, 0), (1, most + 1)], beside), Some((7, 1, [slots + 1, slots])));
        }
    }

    /// M = 18 acknowledged: X = 94, and with LOSS 0 to 3 an exchange lasts 94, 208, 322 and 436, which take 2, 4, 6 and
    /// 8 slots of 60.
    #[test]
    fn condition_7_with_failed_tries() {
        let with_loss = |loss| refusal(&[(0, 0), (1, 1)], Beside { ack: 1, loss, ..EVEN });
        assert_eq!([0, 1, 2].map(with_loss), [None; 3]);
        assert_eq!(with_loss(3), Some((7, 1, [8, 7])));
        assert_eq!(superframes(&[(0, 0), (1, 1), (1, 1)], Beside { ack: 1, loss: 1, ..EVEN }), [(1, 2, 4 + 4, 7)]);
    }

    /// The root's superframe has the leaf's link of 3 slots and the root's own downward one, of 4 or 5.
    #[test]
    fn condition_7_counts_a_downward_link_at_its_sender() {
        let below = Beside { sink: 2, ..EVEN };
        assert_eq!(refusal(&[(0, 1), (1, 0), (2, 0), (1, 3)], below), None);
        assert_eq!(refusal(&[(0, 2), (1, 0), (2, 0), (1, 3)], below), Some((7, 1, [3 + 5, 7])));
        assert_eq!(refusal(&[(0, 2), (1, 0), (2, 7), (1, 2)], below), None);
        assert_eq!(refusal(&[(0, 2), (1, 0), (2, 8), (1, 2)], below), Some((7, 2, [8, 7])));
    }

    /// X = 90 and S = 60: four leaves of rate 1 have 2 slots each, and their router's link with rate 4 has 6.
    #[test]
    fn condition_7_below_the_root() {
        let beside = Beside { head: 18, ..EVEN };
        let nodes = with_leaves(&[(0, 0), (1, 0)], 2, 4, 1);
        assert_eq!(refusal(&nodes, beside), Some((7, 2, [8, 7])));
        assert_eq!(refusal(&nodes[..5], beside), None);
    }

    /// S = 960: the root's one reservation of 240 frames has all 15 slots. If silent links counted for the beacon, from
    /// 80 of them on there would be 14.
    #[test]
    fn silent_links_do_not_make_the_beacon_longer() {
        let beside = Beside { superframe_order: 4, ..EVEN };
        assert_eq!(refusal(&with_leaves(&[(0, 0), (1, 240)], 1, 200, 0), beside), None);
        assert_eq!(refusal(&with_leaves(&[(0, 0), (1, 241)], 1, 200, 0), beside), Some((7, 1, [16, 15])));
    }

    /// 5 comes before 7 at a router, and a router before the next one; 6 before both.
    #[test]
    fn order_of_conditions() {
        let eight = with_leaves(&[(0, 0)], 1, 8, 1);
        assert_eq!(refusal(&eight, EVEN), Some((5, 1, [8, 0])), "5 before 7");
        let below = with_leaves(&[(0, 0), (1, 0)], 2, 8, 1);
        assert_eq!(refusal(&below, EVEN), Some((7, 1, [8, 7])), "7 at router 1 before 5 at router 2");
        assert_eq!(refusal(&below, Beside { beacon_order: 0, ..EVEN }), Some((6, 0, [2, 1])), "6 before both");
        let both = with_leaves(&with_leaves(&[(0, 0), (1, 0), (1, 0)], 3, 8, 1), 2, 9, 1);
        let wide = Beside { superframe_order: 1, ..EVEN };
        assert_eq!(refusal(&both, wide), Some((5, 2, [9, 0])), "the lower number first");
    }

    #[test]
    fn another_check() {
        let list = list(&[(0, 0), (1, 8)]);
        assert!(plan_tree(&list, &EVEN).is_err());
        assert!(plan_tree_checking(&list, &EVEN, |_| Ok(())).is_ok());
    }
}
