//! Buffers as they are lent to the planner to be written, with bytes around them that must stay.

use crate::difference::Found;
use crate::entries::{Answer, Memory};
use reference::rows::Rng;

/// Guard bytes on either side of the buffer, as many as this at most.
const MOST_GUARDS: usize = 64;
/// Length of the store of random bytes.
const STORE: usize = 1 << 16;

/// Memories are reused from call to call.
pub struct Buffers {
    /// Random bytes; each call's memory is a part of them that starts anywhere.
    store: Vec<u8>,
    memory: Vec<u8>,
}

impl Buffers {
    pub fn new(rng: &mut Rng) -> Buffers {
        Buffers { store: rng.bytes(STORE), memory: Vec::new() }
    }

    /// Lends a buffer of this length for a call. One of length 0 is lent as NULL half the time.
    pub fn lend(&mut self, rng: &mut Rng, room: usize, call: impl FnOnce(Memory) -> Answer) -> Found<'_> {
        let start = rng.index(MOST_GUARDS + 1);
        let length = start + room + rng.index(MOST_GUARDS + 1);
        let from = rng.index(STORE - length + 1);
        let before = &self.store[from..from + length];
        self.memory.clear();
        self.memory.extend_from_slice(before);
        let null = room == 0 && rng.one_in(2);
        let answer = call((!null).then(|| &mut self.memory[start..start + room]));
        Found { answer, before, after: &self.memory, start, room }
    }
}

#[cfg(test)]
mod tests {
    use super::*;

    const ANSWER: Answer = Answer { number: 0, place: 0, length: 0 };

    #[test]
    fn what_was_written_is_found() {
        let mut rng = Rng::new(1);
        let mut buffers = Buffers::new(&mut rng);
        for room in 0..200 {
            let mut lent = None;
            let found = buffers.lend(&mut rng, room, |buffer| {
                lent = buffer.map(|buffer| {
                    buffer.iter_mut().for_each(|byte| *byte ^= 0xff);
                    buffer.len()
                });
                ANSWER
            });
            assert!(lent == Some(room) || (lent.is_none() && room == 0));
            let inside = found.start..found.start + room;
            let changed = |at: &usize| found.before[*at] != found.after[*at];
            assert!((0..found.before.len()).all(|at| changed(&at) == inside.contains(&at)));
        }
    }

    #[test]
    fn no_room_is_lent_in_both_ways() {
        let mut rng = Rng::new(2);
        let mut buffers = Buffers::new(&mut rng);
        let mut null = Vec::new();
        for _ in 0..100 {
            buffers.lend(&mut rng, 0, |buffer| {
                null.push(buffer.is_none());
                ANSWER
            });
        }
        assert!(null.contains(&true) && null.contains(&false));
    }
}
