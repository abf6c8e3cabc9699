//! The run of document 01, "The run", looking only at symbols in which something changes.
//!
//! Why this is the same as looking at every symbol:
//!
//! 1. By document 01 nothing changes a queue but the end of an exchange and a reading. An exchange
//!    begins only at a start of its link, and only if a frame came to the node in an earlier symbol.
//!    So the state (which frames wait where since when, which are being sent) changes only in symbols
//!    with an end, with a reading, or with a start that is used. In every other symbol the order of
//!    document 01 does nothing.
//! 2. The ends are known when an exchange begins (its whole length later, however many of its tries
//!    fail: "a frame counts as received when its exchange ends", request E5), the readings are known
//!    from the list. It remains to know the used starts. While a node sends, no start of its link
//!    comes: its starts are at least an exchange apart, within an interval by definition and between
//!    intervals because the last exchange ends within its window or with it, and the exchange that
//!    ends in the symbol of a start has ended before it, for ends come first in a symbol. A node that does not send and
//!    has frames uses the first start that comes after the symbol in which its oldest frame came:
//!    every earlier start finds no frame that came earlier, and this one does. That symbol is fixed
//!    once the oldest frame is there, for a frame that comes later does not make the oldest older,
//!    and one that comes in the same symbol is as old as the oldest. So each node has at most one
//!    start planned, and the plan is made when its first frame comes or when its exchange ends.
//! 3. A queue's length stays as it is between symbols with an end or a reading, so its largest value
//!    is found by looking after the readings of those symbols. (Starts leave the length alone: a
//!    frame fills its place until it is at the receiver.)
//! 4. The time on its way of a frame that has not come to the sink, u − c, grows with u, so its
//!    largest value is the one at the run's last symbol, or d − c for a frame that came in symbol d.
//!
//! The events of one symbol are taken in document 01's order: all ends, all readings, all starts.

use std::cmp::Reverse;
use std::collections::{BinaryHeap, VecDeque};

use crate::failures::{Failures, Tries};
use crate::link::Link;
use crate::setup::{self, Frame, Setup};
use crate::ties::Ties;
use crate::tree::Ways;

/// What a run did.
#[derive(Clone, Debug, PartialEq, Eq)]
pub struct Outcome {
    /// The frames made, in the order of symbol and sensor, with the symbol in which each came to the
    /// sink, if it did.
    pub frames: Vec<(Frame, Option<u64>)>,
    /// The frames that came to the sink or were made there: symbol and number, in ascending order.
    pub arrivals: Vec<(u64, usize)>,
    /// The largest length of each node's queue (0 for the sink, which has none).
    pub queues: Vec<u64>,
    /// The last symbol looked at.
    pub last: u64,
    /// The tries of the exchanges that ended.
    pub tries: Tries,
}

impl Outcome {
    /// Every exchange has had the time for all its tries.
    pub fn check_tries(&self) -> Result<(), String> {
        match self.tries.late {
            0 => Ok(()),
            late => Err(format!("{late} exchanges were over before the last try was")),
        }
    }
}

/// What happens at a node in a symbol; ends come before starts.
#[derive(Clone, Copy, PartialEq, Eq, PartialOrd, Ord)]
enum Event {
    End,
    Start,
}

/// A node with its queue. The frame being sent is still in the queue but waits no more.
#[derive(Default)]
struct Node {
    /// Waiting frames, the one that goes first on top: symbol in which it came, rank, number.
    waiting: BinaryHeap<Reverse<(u64, u64, usize)>>,
    /// The frame being sent, and how many of its tries fail.
    sending: Option<(usize, u64)>,
    planned: bool,
    largest: u64,
}

struct Run<'a> {
    links: &'a [Option<Link>],
    ties: Ties,
    failures: Failures,
    tries: Tries,
    frames: Vec<(Frame, Option<u64>)>,
    unmade: VecDeque<usize>,
    arrivals: Vec<(u64, usize)>,
    nodes: Vec<Node>,
    events: BinaryHeap<Reverse<(u64, Event, usize)>>,
    /// Nodes whose queue changed in the present symbol.
    touched: Vec<usize>,
}

/// Runs a setup through symbols 0 to `last`.
pub fn run<T: Ways>(links: &[Option<Link>], setup: &Setup<T>, last: u64) -> Outcome {
    let frames: Vec<(Frame, Option<u64>)> = setup::frames(&setup.readings).into_iter().map(|f| (f, None)).collect();
    let mut run = Run {
        links,
        ties: setup.ties,
        failures: setup.failures,
        tries: Tries::default(),
        unmade: (0..frames.len()).collect(),
        frames,
        arrivals: Vec::new(),
        nodes: links.iter().map(|_| Node::default()).collect(),
        events: BinaryHeap::new(),
        touched: Vec::new(),
    };
    while let Some(symbol) = run.next_symbol().filter(|symbol| *symbol <= last) {
        run.step(symbol);
    }
    run.arrivals.sort_unstable();
    let queues = run.nodes.iter().map(|node| node.largest).collect();
    Outcome { frames: run.frames, arrivals: run.arrivals, queues, last, tries: run.tries }
}

impl Run<'_> {
    /// The next symbol in which something happens.
    fn next_symbol(&self) -> Option<u64> {
        let event = self.events.peek().map(|Reverse((symbol, _, _))| *symbol);
        let reading = self.unmade.front().map(|frame| self.frames[*frame].0.made);
        event.into_iter().chain(reading).min()
    }

    /// One symbol, in document 01's order.
    fn step(&mut self, symbol: u64) {
        while let Some(node) = self.take(symbol, Event::End) {
            self.end(symbol, node);
        }
        while let Some(frame) = self.unmade.front().copied().filter(|f| self.frames[*f].0.made == symbol) {
            self.unmade.pop_front();
            self.come(symbol, frame, self.frames[frame].0.sensor);
        }
        for node in std::mem::take(&mut self.touched) {
            self.look(node);
            self.plan(symbol, node);
        }
        while let Some(node) = self.take(symbol, Event::Start) {
            self.start(symbol, node);
        }
    }

    /// The next node with this event in this symbol.
    fn take(&mut self, symbol: u64, event: Event) -> Option<usize> {
        let Reverse((when, what, node)) = *self.events.peek()?;
        if (when, what) != (symbol, event) {
            return None;
        }
        self.events.pop();
        Some(node)
    }

    /// An exchange ends: its frame leaves its queue and comes to the receiver.
    fn end(&mut self, symbol: u64, node: usize) {
        let sent = self.nodes[node].sending.take();
        if let (Some((frame, failed)), Some(link)) = (sent, self.links[node]) {
            self.tries.failed += failed;
            self.tries.worst += u64::from(failed > 0 && failed == link.loss);
            self.tries.late += u64::from(link.tries(failed) > link.exchange);
            self.touched.push(node);
            self.come(symbol, frame, link.next);
        }
    }

    /// A frame comes to a node, from a neighbour or from the node's own sensor. The sink hands it on
    /// at once.
    fn come(&mut self, symbol: u64, frame: usize, node: usize) {
        if self.links[node].is_none() {
            self.frames[frame].1 = Some(symbol);
            self.arrivals.push((symbol, frame));
            return;
        }
        let rank = self.ties.rank(frame, self.frames[frame].0.made, node);
        self.nodes[node].waiting.push(Reverse((symbol, rank, frame)));
        self.touched.push(node);
    }

    /// Notes the length of a queue after the ends and readings of a symbol.
    fn look(&mut self, node: usize) {
        let node = &mut self.nodes[node];
        let length = node.waiting.len() as u64 + u64::from(node.sending.is_some());
        node.largest = node.largest.max(length);
    }

    /// Plans the next used start of a node that has frames, does not send and has no start planned.
    fn plan(&mut self, symbol: u64, number: usize) {
        let node = &mut self.nodes[number];
        if node.planned || node.sending.is_some() {
            return;
        }
        let (Some(Reverse((came, _, _))), Some(link)) = (node.waiting.peek(), self.links[number]) else {
            return;
        };
        if let Some(start) = link.start_from(symbol.max(came + 1)) {
            node.planned = true;
            self.events.push(Reverse((start, Event::Start, number)));
        }
    }

    /// A used start: the oldest waiting frame is sent and is at the receiver an exchange later.
    fn start(&mut self, symbol: u64, number: usize) {
        let node = &mut self.nodes[number];
        node.planned = false;
        if let (Some(Reverse((_, _, frame))), Some(link)) = (node.waiting.pop(), self.links[number]) {
            node.sending = Some((frame, self.failures.count(frame, number, link.loss)));
            self.events.push(Reverse((symbol + link.exchange, Event::End, number)));
        }
    }
}
