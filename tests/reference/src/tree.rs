//! Document 01, "The tree and its loads": reservations, conditions 5, 6 and 7, and the lines of the plan. By request E2
//! of document 02 condition 7 has a limit for each router.

use crate::air::{self, Air, Reservation};
use crate::settings::Settings;
use crate::{Phrase, Refusal};

/// Reservations of a router's superframe, for its end nodes and child routers together.
const MOST_RESERVATIONS: u64 = 7;
/// H is at most 12.
const HIGHEST: usize = 12;

/// The sort of a line: E, U, D or S of document 01, "The printed plan".
#[derive(Clone, Copy, Debug, PartialEq, Eq)]
pub enum Kind {
    EndNode,
    Up,
    Down,
    Sink,
}

/// A line of the plan, its figures in the order of the header line.
#[derive(Clone, Copy, Debug, PartialEq, Eq)]
pub struct Line {
    pub kind: Kind,
    pub depth: usize,
    pub rate: u64,
    pub burst: u64,
    pub slots: u64,
    pub frames: u64,
    pub latency: u64,
    pub buffer: u64,
    pub delay: u64,
}

/// The lines of a plan in the order in which they are printed.
#[derive(Clone, Debug, PartialEq, Eq)]
pub struct Plan {
    pub lines: Vec<Line>,
}

/// A tree that keeps conditions 5, 6 and 7, with its reservations.
pub struct Tree<'a> {
    settings: &'a Settings,
    air: Air,
    end_node: Reservation,
    /// The reservation of the upward link of each depth 1 to H, at that index.
    up: [Reservation; HIGHEST + 1],
    /// The reservation of the downward link of each depth 0 to SINK − 1, at that index.
    down: [Reservation; HIGHEST],
}

/// Request E2: L of a router at this depth, the slots that it may reserve.
pub fn reservable(settings: &Settings, depth: usize) -> u64 {
    air::reservable(settings.superframe_order, reservations(settings, depth))
}

/// The reservations in the superframe of a router at this depth (g of request E2): one for each of its NE end nodes
/// and, above depth H, one for each of its NR child routers. On the sink's path the downward one takes the place of an
/// upward one.
pub fn reservations(settings: &Settings, depth: usize) -> u64 {
    let children = if depth < settings.height { settings.routers } else { 0 };
    settings.end_nodes + children
}

/// Conditions 5, 6 and 7.
pub fn reserve(settings: &Settings) -> Result<Tree<'_>, Refusal> {
    reserve_counting(settings, reservable)
}

/// The same with this count of the slots that a router at a depth may reserve.
pub fn reserve_counting(settings: &Settings, count: impl Fn(&Settings, usize) -> u64) -> Result<Tree<'_>, Refusal> {
    if settings.end_nodes + settings.routers > MOST_RESERVATIONS {
        return Err(Refusal::new(Phrase::Reservations, 0, [settings.end_nodes, settings.routers]));
    }
    let routers = router_count(settings);
    let superframes = 1 << (settings.beacon_order - settings.superframe_order);
    if routers > superframes {
        return Err(Refusal::new(Phrase::Routers, 0, [routers, superframes]));
    }
    let tree = Tree::new(settings);
    for depth in 0..=settings.height {
        let reservable = count(settings, depth);
        if let Some(used) = tree.slots_used(depth).find(|&used| used > reservable) {
            return Err(Refusal::new(Phrase::Slots, depth as u32, [used, reservable]));
        }
    }
    Ok(tree)
}

/// The sum of NR^j for j = 0 to H; it is 1 where H = 0. It is at most the sum of 7^j for j = 0 to 12, below 2^34.
fn router_count(settings: &Settings) -> u64 {
    (0..settings.height).fold(1, |count, _| 1 + settings.routers * count)
}

impl Tree<'_> {
    /// Reserves for the rates of all links. Rates do not depend on latencies, so condition 7 can be decided before any
    /// burst is formed. The tree has at most 2^14 routers (condition 6) and so at most 2^17 sensors, which puts every
    /// rate below 2^29.
    fn new(settings: &Settings) -> Tree<'_> {
        let Settings { beacon_order, superframe_order, octets, acknowledged, loss, .. } = *settings;
        let air = Air::new(beacon_order, superframe_order, octets, acknowledged, loss);
        let end_node = air.reserve(settings.rate);
        let none = Reservation::default();
        let mut tree = Tree { settings, air, end_node, up: [none; HIGHEST + 1], down: [none; HIGHEST] };
        tree.reserve_upward();
        tree.reserve_downward();
        tree
    }

    fn reserve_upward(&mut self) {
        let mut rate = self.local(self.settings.rate, self.settings.rate);
        for depth in (1..=self.settings.height).rev() {
            self.up[depth] = self.air.reserve(rate);
            rate = self.local(self.settings.rate, self.settings.rate) + self.settings.routers * rate;
        }
    }

    fn reserve_downward(&mut self) {
        let mut from_above = 0;
        for depth in 0..self.settings.sink {
            let from_below = (self.settings.routers - 1) * self.up[depth + 1].rate;
            let rate = self.local(self.settings.rate, self.settings.rate) + from_below + from_above;
            self.down[depth] = self.air.reserve(rate);
            from_above = rate;
        }
    }

    /// The sensor and end node terms of a router's load, for its rate or its burst: OWN times that of a sensor and NE
    /// times that of what left an end node.
    fn local(&self, sensor: u64, left_end_node: u64) -> u64 {
        self.settings.own * sensor + self.settings.end_nodes * left_end_node
    }

    /// Slots used by each sort of router that a depth has: those off the sink's path first, then the one on it.
    fn slots_used(&self, depth: usize) -> impl Iterator<Item = u64> {
        let end_nodes = self.settings.end_nodes * self.end_node.slots;
        let children = [self.slots_off_path(depth), self.slots_on_path(depth)];
        children.into_iter().flatten().map(move |slots| end_nodes + slots)
    }

    /// Slots for the child routers of a router off the sink's path: NR upward links, none at depth H. The root is on
    /// the path if SINK > 0, and there is no other router at its depth.
    fn slots_off_path(&self, depth: usize) -> Option<u64> {
        let child = if depth < self.settings.height { self.up[depth + 1].slots } else { 0 };
        (depth > 0 || self.settings.sink == 0).then_some(self.settings.routers * child)
    }

    /// Slots for the child routers of the router on the sink's path: one of the NR upward links is replaced by the
    /// downward one.
    fn slots_on_path(&self, depth: usize) -> Option<u64> {
        let on_path = depth < self.settings.sink;
        on_path.then(|| (self.settings.routers - 1) * self.up[depth + 1].slots + self.down[depth].slots)
    }

    /// The lines of the plan.
    ///
    /// Every sum fits into 64 bits. After condition 7 a link carries at most m ≤ 15 × S / X frames, below 2^19, and
    /// T < 2^24, so a link adds less than 2^43 to a burst. There are fewer than 2^17 + 12 links, and at most 2^17
    /// sensors with bursts below 255 × 2^24 each: all of them together stay below 2^61.
    pub fn plan(&self) -> Plan {
        let lines = Vec::with_capacity(self.settings.height + self.settings.sink + 2);
        let mut bursts = Bursts { tree: self, lines, local: 0, left_up: [0; HIGHEST + 2], delay: 0 };
        bursts.end_node();
        bursts.upward();
        bursts.downward_and_sink();
        Plan { lines: bursts.lines }
    }
}

/// The second walk over the tree: bursts, and with them the lines.
struct Bursts<'a> {
    tree: &'a Tree<'a>,
    lines: Vec<Line>,
    /// The burst of a router's sensor and end node terms.
    local: u64,
    /// The burst that left each depth upward, at that index; 0 at H + 1, where no router is.
    left_up: [u64; HIGHEST + 2],
    /// The delays so far; in the end the total delay.
    delay: u64,
}

impl Bursts<'_> {
    /// Adds a link's line and returns the burst that leaves the link.
    fn link(&mut self, kind: Kind, depth: usize, reservation: Reservation, burst: u64) -> u64 {
        let Reservation { rate, slots, frames } = reservation;
        let latency = self.tree.air.latency(&reservation);
        let left = burst + rate * latency;
        let buffer = left.div_ceil(self.tree.air.interval);
        let delay = burst.div_ceil(frames) + latency;
        self.lines.push(Line { kind, depth, rate, burst, slots, frames, latency, buffer, delay });
        self.delay += delay;
        left
    }

    /// The end node's line, none if NE = 0; its delay is 0 then.
    fn end_node(&mut self) {
        let sensor = self.tree.settings.burst * self.tree.air.interval;
        let mut left = 0;
        if self.tree.settings.end_nodes > 0 {
            left = self.link(Kind::EndNode, 0, self.tree.end_node, sensor);
        }
        self.local = self.tree.local(sensor, left);
    }

    fn upward(&mut self) {
        for depth in (1..=self.tree.settings.height).rev() {
            let burst = self.local + self.tree.settings.routers * self.left_up[depth + 1];
            self.left_up[depth] = self.link(Kind::Up, depth, self.tree.up[depth], burst);
        }
    }

    fn downward_and_sink(&mut self) {
        let mut from_above = 0;
        for depth in 0..self.tree.settings.sink {
            let from_below = (self.tree.settings.routers - 1) * self.left_up[depth + 1];
            let burst = self.local + from_below + from_above;
            from_above = self.link(Kind::Down, depth, self.tree.down[depth], burst);
        }
        let from_below = self.tree.settings.routers * self.left_up[self.tree.settings.sink + 1];
        self.sink(self.local + from_below + from_above);
    }

    /// The sink's line. Its load has the sensor and end node terms, NR upward loads from below if SINK < H, and the
    /// downward load from above if SINK > 0; for SINK = 0 that is the upward load of depth 0.
    fn sink(&mut self, burst: u64) {
        let Settings { rate, routers, sink, .. } = *self.tree.settings;
        let from_below = if sink < self.tree.settings.height { routers * self.tree.up[sink + 1].rate } else { 0 };
        let from_above = if sink > 0 { self.tree.down[sink - 1].rate } else { 0 };
        self.lines.push(Line {
            kind: Kind::Sink,
            depth: sink,
            rate: self.tree.local(rate, rate) + from_below + from_above,
            burst,
            slots: 0,
            frames: 0,
            latency: 0,
            buffer: burst.div_ceil(self.tree.air.interval),
            delay: self.delay,
        });
    }
}

/// By how much the slots that a router uses exceed those that it may reserve, for the router where that is most. It is
/// 0 or less for settings that are planned. The settings keep conditions 5 and 6.
pub fn excess(settings: &Settings) -> i64 {
    let tree = Tree::new(settings);
    let excess = |depth| {
        let reservable = reservable(settings, depth) as i64;
        tree.slots_used(depth).map(move |used| used as i64 - reservable)
    };
    (0..=settings.height).flat_map(excess).max().expect("every tree has a root")
}

#[cfg(test)]
mod tests {
    use super::*;
    use crate::{plan_row, Heading, Outcome};

    /// Under the name line that has as many names as the row has values.
    fn heading(row: &str) -> Heading {
        let values = row.split(' ').count();
        Heading::BOTH.into_iter().find(|heading| heading.columns() == values).unwrap()
    }

    fn plan(row: &str) -> Outcome {
        plan_row(heading(row), row.as_bytes())
    }

    fn lines(row: &str) -> Vec<Line> {
        plan(row).unwrap().lines
    }

    fn refusal(row: &str) -> Option<(u32, u32)> {
        plan(row).err().map(|refusal| (refusal.number, refusal.place))
    }

    /// Place and values of a refusal with number 7.
    fn slots(row: &str) -> Option<(u32, [u64; 2])> {
        let refusal = plan(row).err().filter(|refusal| refusal.number == 7);
        refusal.map(|refusal| (refusal.place, refusal.values))
    }

    fn read(row: &str) -> Settings {
        crate::settings::read(heading(row), row.as_bytes()).ok().unwrap()
    }

    #[test]
    fn p1_lines() {
        let lines = lines("8 4 1 2 1 0 0 1 1 19 7 0");
        assert_eq!(lines.iter().map(|line| line.kind).collect::<Vec<_>>(), [Kind::EndNode, Kind::Up, Kind::Sink]);
        assert_eq!(lines.iter().map(|line| line.buffer).collect::<Vec<_>>(), [2, 3, 8]);
        assert_eq!(lines[2].delay, 571_904);
    }

    /// By request E2 P3's row is refused: 4 end nodes use 8 slots, and of 440 symbols and the beacon's 64 the
    /// contention period takes 9 slots of 60, which leaves 7. P4's row uses 10 of 7, as 440 and 70 symbols take 9 slots
    /// too. One end node less than in P3 is planned, with the figures that document 01 has there.
    #[test]
    fn p3_and_p4() {
        assert_eq!(slots("0 0 0 0 4 0 0 1 1 19 7 0"), Some((0, [8, 7])));
        assert_eq!(slots("0 0 0 0 5 0 0 1 1 19 7 0"), Some((0, [10, 7])));
        let end_node = lines("0 0 0 0 3 0 0 1 1 19 7 0")[0];
        assert_eq!((end_node.slots, end_node.frames, end_node.latency, end_node.delay), (2, 1, 1_064, 2_024));
    }

    #[test]
    fn p7_to_p10() {
        assert_eq!(refusal("5 4 1 1 1 0 0 1 1 19 7 0"), None);
        assert_eq!(refusal("5 4 1 2 1 0 0 1 1 19 7 0"), Some((6, 0)));
        assert_eq!(refusal("8 4 1 4 3 0 0 1 1 19 7 0"), None);
        assert_eq!(refusal("8 4 1 4 4 0 0 1 1 19 7 0"), Some((5, 0)));
    }

    #[test]
    fn no_end_nodes_no_line() {
        let lines = lines("8 4 1 2 0 1 1 1 1 19 7 0");
        assert_eq!(lines.iter().map(|line| line.kind).collect::<Vec<_>>(), [Kind::Up, Kind::Down, Kind::Sink]);
        assert_eq!(lines[2].delay, lines[0].delay + lines[1].delay);
    }

    #[test]
    fn lines_of_a_deep_sink() {
        let lines = lines("14 7 3 2 1 1 2 3 1 19 7 0");
        let places: Vec<_> = lines.iter().map(|line| (line.kind, line.depth)).collect();
        let expected = [
            (Kind::EndNode, 0),
            (Kind::Up, 3),
            (Kind::Up, 2),
            (Kind::Up, 1),
            (Kind::Down, 0),
            (Kind::Down, 1),
            (Kind::Sink, 2),
        ];
        assert_eq!(places, expected);
        assert_eq!(lines.iter().map(|line| line.rate).collect::<Vec<_>>(), [1, 2, 6, 14, 16, 24, 30]);
    }

    /// Rows that the first depth with too few slots answers, at each depth below the root where that can happen.
    #[test]
    fn first_depth_with_too_few_slots() {
        assert_eq!(slots("14 1 2 2 1 0 2 1 1 27 1 1"), Some((1, [12, 11])));
        assert_eq!(slots("14 2 4 2 0 1 3 1 1 21 1 0"), Some((2, [14, 13])));
        assert_eq!(slots("14 5 5 2 3 0 5 1 1 30 1 0"), Some((4, [16, 15])));
        assert_eq!(slots("14 3 6 2 0 1 6 1 1 12 1 0"), Some((5, [15, 14])));
        assert_eq!(slots("14 6 7 2 1 0 7 1 1 55 1 1"), Some((6, [16, 15])));
    }

    /// S = 60 and X = 104: 2 slots for each of 3 end nodes, 6 for an upward link of rate 3, 11 for the downward one of
    /// rate 6. A root with the sink below it has one upward link less.
    #[test]
    fn slots_used_at_the_root() {
        assert_eq!(slots("14 0 1 2 3 0 0 1 1 19 7 0"), Some((0, [3 * 2 + 2 * 6, 7])));
        assert_eq!(slots("14 0 1 2 3 0 1 1 1 19 7 0"), Some((0, [3 * 2 + 6 + 11, 7])));
    }

    /// S = 120 and X = 142: 2 slots for the end node. The root just fits with 4 slots for rate 3 from below and 5 for
    /// rate 4 to below. At depth 1 a router off the path uses 6, the one on it 2 for rate 1 and 8 for rate 6.
    #[test]
    fn slots_used_on_the_path_where_those_off_it_fit() {
        assert_eq!(slots("14 1 2 2 1 0 2 1 1 27 1 1"), Some((1, [2 + 2 + 8, 11])));
    }

    /// The downward reservation takes the place of one upward: on the path and off it there are NE + NR.
    #[test]
    fn reservations_by_depth() {
        let by_depth = |row: &str| {
            let settings = read(row);
            (0..=settings.height).map(|depth| reservations(&settings, depth)).collect::<Vec<_>>()
        };
        assert_eq!(by_depth("14 0 2 2 3 0 0 1 1 5 1 0"), [5, 5, 3]);
        assert_eq!(by_depth("14 0 2 2 3 0 2 1 1 5 1 0"), [5, 5, 3]);
        assert_eq!(by_depth("14 0 3 1 0 1 0 1 1 5 1 0"), [1, 1, 1, 0]);
        assert_eq!(by_depth("14 0 0 0 7 0 0 1 1 5 1 0"), [7]);
        assert_eq!(by_depth("14 0 0 0 0 1 0 1 1 5 1 0"), [0]);
    }

    /// Request E2, "check 7 uses each router's own": without end nodes a router at depth H has no reservations, and may
    /// reserve one slot more than those above it.
    #[test]
    fn slots_that_may_be_reserved_by_depth() {
        let by_depth = |row: &str| {
            let settings = read(row);
            (0..=settings.height).map(|depth| reservable(&settings, depth)).collect::<Vec<_>>()
        };
        assert_eq!(by_depth("14 0 2 1 0 1 0 1 1 5 1 0"), [7, 7, 8]);
        assert_eq!(by_depth("14 1 2 1 0 1 0 1 1 5 1 0"), [11, 11, 12]);
        assert_eq!(by_depth("14 2 2 2 0 1 2 1 1 5 1 0"), [13, 13, 14]);
        assert_eq!(by_depth("14 3 2 2 0 1 2 1 1 5 1 0"), [14, 14, 15]);
        assert_eq!(by_depth("14 4 2 2 0 1 2 1 1 5 1 0"), [15, 15, 15]);
        assert_eq!(by_depth("14 0 2 1 1 0 0 1 1 5 1 0"), [7, 7, 7]);
    }

    /// X = S = 60, and the root has one reservation, of 8 slots for rate 8: L(0, 1) is 7. At depth 1, which is depth H,
    /// there are none, and L(0, 0) is 8; a planner that uses this one at every depth plans the row.
    #[test]
    fn the_root_does_not_get_the_slots_of_depth_h() {
        let row = "4 0 1 1 0 1 0 1 8 17 1 0";
        assert_eq!(slots(row), Some((0, [8, 7])));
        let settings = read(row);
        assert!(reserve_counting(&settings, |settings, _| reservable(settings, settings.height)).is_ok());
        assert_eq!(refusal("4 0 1 1 0 1 0 1 7 17 1 0"), None);
    }

    /// Rows in which a router uses all the slots that it may reserve, with its reservations (g of request E2) and those
    /// slots (L). X is 60 where HEAD is 17, else 36, and S is 60, 120, 240, 480 and 960 for SO 0 to 4. With 6
    /// reservations no router uses just 7 slots at SO 0.
    const JUST_PLANNED: [(&str, u64, u64); 14] = [
        ("0 0 0 0 1 0 0 1 7 17 1 0", 1, 7),
        ("1 0 1 1 0 1 0 1 7 17 1 0", 1, 7),
        ("3 0 6 1 1 0 0 1 1 17 1 0", 2, 7),
        ("1 0 1 1 2 0 0 1 2 5 1 0", 3, 7),
        ("2 0 1 2 1 1 1 1 1 17 1 0", 3, 7),
        ("1 0 1 1 3 1 0 1 1 17 1 0", 4, 7),
        ("1 0 1 1 4 0 0 1 1 5 1 0", 5, 7),
        ("0 0 0 0 7 0 0 1 1 17 1 0", 7, 7),
        ("1 1 0 0 1 0 0 1 22 17 1 0", 1, 11),
        ("2 1 1 1 5 1 0 1 2 17 1 0", 6, 11),
        ("2 2 0 0 1 0 0 1 52 17 1 0", 1, 13),
        ("3 2 1 1 6 1 0 1 4 17 1 0", 7, 13),
        ("5 3 1 2 4 1 0 1 8 17 1 0", 6, 14),
        ("4 4 0 0 1 0 0 1 240 17 1 0", 1, 15),
    ];

    #[test]
    fn all_slots_used() {
        for (row, of_router, slots) in JUST_PLANNED {
            assert_eq!(refusal(row), None, "{row}");
            let settings = read(row);
            assert_eq!(excess(&settings), 0, "{row}");
            let tree = Tree::new(&settings);
            let is_full = |depth: &usize| tree.slots_used(*depth).any(|used| used == reservable(&settings, *depth));
            let full = (0..=settings.height).find(is_full).unwrap();
            assert_eq!((reservations(&settings, full), reservable(&settings, full)), (of_router, slots), "{row}");
        }
    }

    /// Rows in which the root uses one slot more than it may reserve: with 1 to 6 reservations at SO 0, with 7 at SO 1,
    /// as 7 never use just 8 slots at SO 0, and with one at SO 1 to 4. X is 60 where HEAD is 17, 48 where it is 11 and
    /// 36 where it is 5.
    #[test]
    fn one_slot_too_many() {
        for (row, slots_used) in [
            ("0 0 0 0 1 0 0 1 8 17 1 0", [8, 7]),
            ("3 0 7 1 1 0 0 1 1 17 1 0", [8, 7]),
            ("1 0 1 1 2 0 0 1 2 11 1 0", [8, 7]),
            ("0 0 0 0 4 0 0 1 2 17 1 0", [8, 7]),
            ("1 0 1 1 4 0 0 1 1 17 1 0", [8, 7]),
            ("1 0 1 1 5 0 0 1 1 5 1 0", [8, 7]),
            ("2 1 1 1 6 0 0 1 2 17 1 0", [12, 11]),
            ("1 1 0 0 1 0 0 1 23 17 1 0", [12, 11]),
            ("2 2 0 0 1 0 0 1 53 17 1 0", [14, 13]),
            ("3 3 0 0 1 0 0 1 113 17 1 0", [15, 14]),
            ("4 4 0 0 1 0 0 1 241 17 1 0", [16, 15]),
        ] {
            assert_eq!(slots(row), Some((0, slots_used)), "{row}");
            assert_eq!(excess(&read(row)), 1, "{row}");
        }
    }

    /// A router without reservations may reserve 8 slots at SO 0 and uses none, whatever its sensor makes: no row uses
    /// all of them.
    #[test]
    fn no_reservations_no_slots() {
        let row = "0 0 0 0 0 1 0 255 4095 126 1 1";
        assert_eq!(refusal(row), None);
        assert_eq!((reservable(&read(row), 0), excess(&read(row))), (8, -8));
    }

    /// M = 6 acknowledged, RATE 1, one end node at SO 0: with LOSS 0 to 7 an exchange lasts 70, 160, 250, 340, 430,
    /// 520, 610 and 700, which take 2, 3, 5, 6, 8, 9, 11 and 12 slots of 60. 7 of them may be reserved.
    #[test]
    fn slots_with_failed_tries() {
        let row = |loss: u64| format!("0 0 0 0 1 0 0 1 1 5 1 1 {loss}");
        let of_link = [0, 1, 2, 3].map(|loss| (lines(&row(loss))[0].slots, lines(&row(loss))[0].latency));
        assert_eq!(of_link, [(2, 960 + 70), (3, 960 + 160), (5, 960 + 250), (6, 960 + 340)]);
        assert_eq!([4, 5, 6, 7].map(|loss| slots(&row(loss)).unwrap().1), [[8, 7], [9, 7], [11, 7], [12, 7]]);
    }

    /// The most slots: a tree of 8,191 routers with 5 end nodes each and sensors of their own. Of the 49,146 sensors,
    /// at 4,095 frames each, all but those of one of the root's two branches, 4,095 routers, send down from the root:
    /// 24,576 × 4,095 frames of 2,860 symbols, with slots of 60. The other branch sends 24,570 × 4,095 up, and each of
    /// 5 end nodes 4,095.
    #[test]
    fn slots_beyond_32_bits() {
        let slots_for = |sensors: u64| (sensors * 4_095 * 2_860_u64).div_ceil(60);
        let used = 5 * slots_for(1) + slots_for(24_570) + slots_for(24_576);
        assert_eq!(slots("14 0 12 2 5 1 12 255 4095 126 1 1 7"), Some((0, [used, 7])));
        assert!(used > 1 << 33, "{used}");
    }

    #[test]
    fn both_sorts_of_router() {
        let used = |row: &str| {
            let settings = read(row);
            let tree = Tree::new(&settings);
            (0..=settings.height).map(|depth| tree.slots_used(depth).collect()).collect::<Vec<Vec<u64>>>()
        };
        assert_eq!(used("14 1 2 2 3 0 2 1 1 11 1 0"), [vec![12], vec![7, 13], vec![3]]);
        assert_eq!(used("14 1 2 2 3 0 1 1 1 11 1 0"), [vec![12], vec![7], vec![3]]);
        assert_eq!(used("14 1 2 2 3 0 0 1 1 11 1 0"), [vec![11], vec![7], vec![3]]);
    }

    /// The rate of the sink's line is that of all sensors: a full tree's routers, each with NE + OWN of them.
    #[test]
    fn the_sink_gets_every_sensor() {
        for (row, sensors) in [
            ("14 5 8 2 0 1 0 1 1 5 1 0", 511),
            ("14 5 8 2 0 1 8 1 1 5 1 0", 511),
            ("14 7 3 2 4 1 2 1 1 5 1 0", 75),
            ("14 5 2 6 1 0 2 1 1 5 1 0", 43),
        ] {
            assert_eq!(lines(row).last().unwrap().rate, sensors, "{row}");
        }
    }
}
