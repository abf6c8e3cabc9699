//! The run of document 01, "The run", taken literally: one symbol after another, all nodes in each.
//! It is slow and serves to check the run that looks only at symbols in which something changes. It
//! shares nothing with that run but the numbering of the frames, the ranks in ties and the numbers of
//! tries that fail, and finds the starts by itself.

use crate::failures::Tries;
use crate::link::Link;
use crate::run::Outcome;
use crate::setup::{self, Frame, Setup};
use crate::tree::Ways;

/// Where a frame is.
#[derive(Clone, Copy, PartialEq, Eq)]
enum Place {
    Unmade,
    /// In the queue of a node since a symbol; if it is being sent, its exchange.
    Queue {
        node: usize,
        came: u64,
        sent: Option<Exchange>,
    },
    Sink(u64),
}

/// An exchange under way.
#[derive(Clone, Copy, PartialEq, Eq)]
struct Exchange {
    started: u64,
    /// The symbol in which the present try began; none once one has succeeded.
    trying: Option<u64>,
    /// Tries that have failed so far, and that will.
    failed: u64,
    fails: u64,
}

/// Runs a setup through symbols 0 to `last`.
pub fn run<T: Ways>(links: &[Option<Link>], setup: &Setup<T>, last: u64) -> Outcome {
    let frames = setup::frames(&setup.readings);
    let mut places = vec![Place::Unmade; frames.len()];
    let mut queues = vec![0; links.len()];
    let mut tries = Tries::default();
    for symbol in 0..=last {
        try_again(links, &mut places, symbol);
        ends(links, &mut places, symbol, &mut tries);
        readings(links, &frames, &mut places, symbol);
        starts(links, setup, &frames, &mut places, symbol);
        measure(&places, &mut queues);
    }
    let came = |place: &Place| match place {
        Place::Sink(symbol) => Some(*symbol),
        _ => None,
    };
    let came: Vec<Option<u64>> = places.iter().map(came).collect();
    let mut arrivals: Vec<(u64, usize)> =
        came.iter().enumerate().filter_map(|(frame, came)| came.map(|symbol| (symbol, frame))).collect();
    arrivals.sort_unstable();
    Outcome { frames: frames.into_iter().zip(came).collect(), arrivals, queues, last, tries }
}

/// A frame at a node in a symbol: the sink hands it on, another node puts it into its queue.
fn arrived(links: &[Option<Link>], node: usize, symbol: u64) -> Place {
    match links[node] {
        None => Place::Sink(symbol),
        Some(_) => Place::Queue { node, came: symbol, sent: None },
    }
}

/// Tries that are over in this symbol have failed, and the next begins, or have succeeded.
fn try_again(links: &[Option<Link>], places: &mut [Place], symbol: u64) {
    for place in places.iter_mut() {
        let Place::Queue { node, sent: Some(sent), .. } = place else { continue };
        let link = links[*node].expect("a queue has a link");
        let Some(began) = sent.trying else { continue };
        if sent.failed < sent.fails && began + link.failed_try == symbol {
            sent.failed += 1;
            sent.trying = Some(symbol);
        } else if sent.failed == sent.fails && began + link.good_try == symbol {
            sent.trying = None;
        }
    }
}

/// Exchanges that began an exchange's length earlier end.
fn ends(links: &[Option<Link>], places: &mut [Place], symbol: u64, tries: &mut Tries) {
    for place in places.iter_mut() {
        if let Place::Queue { node, sent: Some(sent), .. } = *place {
            let link = links[node].expect("a queue has a link");
            if sent.started + link.exchange == symbol {
                tries.failed += sent.fails;
                tries.worst += u64::from(sent.fails > 0 && sent.fails == link.loss);
                tries.late += u64::from(sent.trying.is_some());
                *place = arrived(links, link.next, symbol);
            }
        }
    }
}

/// Readings of this symbol make their frames.
fn readings(links: &[Option<Link>], frames: &[Frame], places: &mut [Place], symbol: u64) {
    for (frame, place) in frames.iter().zip(places.iter_mut()) {
        if frame.made == symbol {
            *place = arrived(links, frame.sensor, symbol);
        }
    }
}

/// Each link with a start in this symbol sends the frame that has waited longest, if one came earlier.
fn starts<T: Ways>(links: &[Option<Link>], setup: &Setup<T>, frames: &[Frame], places: &mut [Place], symbol: u64) {
    for (number, link) in links.iter().enumerate() {
        let Some(link) = link else { continue };
        let within = symbol % link.interval;
        let is_start = (0..link.frames).any(|start| link.offset + start * link.exchange == within);
        if !is_start {
            continue;
        }
        let mut chosen: Option<(u64, u64, usize)> = None;
        for (frame, place) in places.iter().enumerate() {
            let Place::Queue { node, came, sent } = *place else { continue };
            if node != number {
                continue;
            }
            assert!(sent.is_none(), "two exchanges of one link at once");
            let turn = (came, setup.ties.rank(frame, frames[frame].made, number), frame);
            if came < symbol && chosen.is_none_or(|best| turn < best) {
                chosen = Some(turn);
            }
        }
        if let Some((came, _, frame)) = chosen {
            let fails = setup.failures.count(frame, number, link.loss);
            let sent = Exchange { started: symbol, trying: Some(symbol), failed: 0, fails };
            places[frame] = Place::Queue { node: number, came, sent: Some(sent) };
        }
    }
}

/// The length of every queue at the end of a symbol.
fn measure(places: &[Place], largest: &mut [u64]) {
    let mut lengths = vec![0; largest.len()];
    for place in places {
        if let Place::Queue { node, .. } = place {
            lengths[*node] += 1;
        }
    }
    for (largest, length) in largest.iter_mut().zip(lengths) {
        *largest = length.max(*largest);
    }
}
