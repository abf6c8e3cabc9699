//! The calls of a round on a list: it goes through the planner and through the reference, each time the same.

use super::fixed::Fixed;
use crate::rounds::{answer, Calls};
use compare::entries::{Answer, Library};
use compare::trees::entries::{TreePlanner, LONGEST_TREE_TEXT};
use reference::{plan_tree, write_tree_plan};
use std::hint::black_box;

/// Calls in a round.
pub const CALLS: u32 = 20;

/// The list and the memories that are used again and again.
pub struct ListCalls {
    fixed: Fixed,
    buffer: Vec<u8>,
    text: Vec<u8>,
}

impl ListCalls {
    pub fn new(fixed: Fixed) -> ListCalls {
        ListCalls { fixed, buffer: vec![0; LONGEST_TREE_TEXT], text: Vec::with_capacity(LONGEST_TREE_TEXT) }
    }
}

impl Calls for ListCalls {
    fn count(&self) -> usize {
        CALLS as usize
    }

    fn ours(&mut self, _: usize) -> Answer {
        let Fixed { list, beside, .. } = black_box(&mut self.fixed);
        let answer = Library.plan_tree(Some(list), beside, Some(&mut self.buffer));
        black_box(&mut self.buffer);
        answer
    }

    fn reference(&mut self, _: usize) -> Answer {
        let Fixed { list, beside, .. } = black_box(&self.fixed);
        answer(plan_tree(list, beside), write_tree_plan, &mut self.text)
    }
}

#[cfg(test)]
mod tests {
    use super::super::fixed;
    use super::*;
    use crate::rounds::Times;

    /// A round on each list agrees, and both have put the same text; none where the list is refused.
    #[test]
    fn a_round_agrees() {
        for fixed in fixed::lists() {
            let mut calls = ListCalls::new(fixed);
            assert_eq!(Times::default().add_round(&mut calls), Ok(()));
            let (text, rest) = calls.buffer.split_at(calls.text.len());
            assert!(text == calls.text && rest.iter().all(|&byte| byte == 0), "{}", calls.fixed.title);
        }
    }
}
