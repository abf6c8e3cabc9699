//! What every call needs: the planner, draws, and buffers to lend to it.

use crate::buffers::Buffers;
use crate::difference::Found;
use crate::entries::{Answer, Memory};
use reference::rows::Rng;

/// A planner under comparison, with what its calls are drawn from.
pub struct Caller<'a, P> {
    pub planner: &'a P,
    pub rng: Rng,
    buffers: Buffers,
}

impl<'a, P> Caller<'a, P> {
    pub fn new(planner: &'a P, seed: u64) -> Caller<'a, P> {
        let mut rng = Rng::new(seed);
        let buffers = Buffers::new(&mut rng);
        Caller { planner, rng, buffers }
    }

    /// Makes a call with a lent buffer of this length.
    pub fn lend(&mut self, room: usize, call: impl FnOnce(&P, Memory) -> Answer) -> Found<'_> {
        self.buffers.lend(&mut self.rng, room, |buffer| call(self.planner, buffer))
    }
}
