//! Which frame goes first among those that came to a node in the same symbol. Document 01, "Time on
//! the air", leaves this free ("any of those that came in the same symbol"), so it is the attacker's.

use crate::chance::mix;

/// A rule that settles every tie. It gives each frame a rank at each node; the lowest rank goes first.
#[derive(Clone, Copy, Debug)]
pub enum Ties {
    /// The frame made first goes last: frames that are old already wait longer still.
    OldestLast,
    /// The frame made first goes first.
    OldestFirst,
    /// Drawn for each frame and node.
    Drawn(u64),
    /// One frame goes last in every tie, the others are drawn.
    WatchedLast { frame: usize, seed: u64 },
}

impl Ties {
    /// The rank of a frame, made in symbol `made`, at `node`.
    pub fn rank(&self, frame: usize, made: u64, node: usize) -> u64 {
        let drawn = |seed: u64| mix(seed ^ mix(frame as u64) ^ mix(!(node as u64))) >> 1;
        match *self {
            Ties::OldestLast => u64::MAX - made,
            Ties::OldestFirst => made,
            Ties::Drawn(seed) => drawn(seed),
            Ties::WatchedLast { frame: watched, .. } if watched == frame => u64::MAX,
            Ties::WatchedLast { seed, .. } => drawn(seed),
        }
    }
}
