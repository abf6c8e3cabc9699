//! Rounds: in each, the same calls go through the planner and through the reference, and their answers must agree.

use crate::figures::{median, range};
use compare::entries::Answer;
use reference::Refusal;
use std::hint::black_box;
use std::time::Instant;

/// The calls of a round. Both sides make them all, by their place from 0 on, and give the answers.
pub trait Calls {
    fn count(&self) -> usize;
    fn ours(&mut self, place: usize) -> Answer;
    fn reference(&mut self, place: usize) -> Answer;
}

/// Seconds that the calls took, round by round.
#[derive(Default)]
pub struct Times {
    pub ours: Vec<f64>,
    pub reference: Vec<f64>,
}

impl Times {
    /// Times one more round; its answers must agree.
    pub fn add_round(&mut self, calls: &mut impl Calls) -> Result<(), String> {
        let places = 0..calls.count();
        let (ours, our_sum) = timed(|| places.clone().fold(0, |sum, place| add(sum, calls.ours(place))));
        let (reference, reference_sum) = timed(|| places.fold(0, |sum, place| add(sum, calls.reference(place))));
        if our_sum != reference_sum {
            return Err(format!("CHECKSUMS DIFFER: ours {our_sum}, reference {reference_sum}"));
        }
        self.ours.push(ours);
        self.reference.push(reference);
        Ok(())
    }

    /// How many times as fast as the reference ours is. There was at least one round.
    pub fn ratio(&self) -> String {
        let ratios: Vec<f64> =
            self.reference.iter().zip(&self.ours).map(|(reference, ours)| reference / ours).collect();
        let (smallest, largest) = range(&ratios);
        let median = median(ratios);
        format!("ours / reference {median:.3}, smallest {smallest:.3}, largest {largest:.3} (above 1: ours is faster)")
    }
}

/// The answer that the reference's outcome comes to; the plan's text is all that the memory holds then. It counts as
/// looked at, so that its writing is not left out.
pub fn answer<P>(outcome: Result<P, Refusal>, write: impl Fn(&P, &mut Vec<u8>), text: &mut Vec<u8>) -> Answer {
    text.clear();
    let answer = match outcome {
        Ok(plan) => {
            write(&plan, text);
            Answer { number: 0, place: 0, length: text.len() as u64 }
        }
        Err(refusal) => Answer { number: refusal.number, place: refusal.place, length: 0 },
    };
    black_box(text);
    answer
}

/// A checksum of answers in their order, modulo 2^64.
fn add(sum: u64, answer: Answer) -> u64 {
    let refusal = u64::from(answer.number) << 32 | u64::from(answer.place) << 40;
    sum.wrapping_mul(31).wrapping_add(answer.length + refusal)
}

/// The seconds that the work took, and what it gave.
pub fn timed(work: impl FnOnce() -> u64) -> (f64, u64) {
    let start = Instant::now();
    let sum = black_box(work());
    (start.elapsed().as_secs_f64(), sum)
}

#[cfg(test)]
mod tests {
    use super::*;

    /// One call, with these checksums.
    struct Sums(u64, u64);

    impl Calls for Sums {
        fn count(&self) -> usize {
            1
        }

        fn ours(&mut self, _: usize) -> Answer {
            Answer { number: 0, place: 0, length: self.0 }
        }

        fn reference(&mut self, _: usize) -> Answer {
            Answer { number: 0, place: 0, length: self.1 }
        }
    }

    #[test]
    fn answers_must_agree() {
        let mut times = Times::default();
        assert_eq!(times.add_round(&mut Sums(5, 5)), Ok(()));
        assert_eq!(times.add_round(&mut Sums(5, 6)), Err("CHECKSUMS DIFFER: ours 5, reference 6".to_string()));
        assert_eq!((times.ours.len(), times.reference.len()), (1, 1));
    }

    #[test]
    fn the_ratio_is_that_of_the_speeds() {
        let times = Times { ours: vec![1.0, 1.0, 2.0], reference: vec![1.5, 2.0, 1.0] };
        let ratio = "ours / reference 1.500, smallest 0.500, largest 2.000 (above 1: ours is faster)";
        assert_eq!(times.ratio(), ratio);
    }

    #[test]
    fn the_checksum_depends_on_every_part_of_every_answer() {
        let right = Answer { number: 7, place: 2, length: 0 };
        let sum = |answer| add(add(0, answer), right);
        for wrong in [Answer { number: 6, ..right }, Answer { place: 3, ..right }, Answer { length: 1, ..right }] {
            assert_ne!(sum(wrong), sum(right));
        }
    }
}
