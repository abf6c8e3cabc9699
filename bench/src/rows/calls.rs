//! The calls of a round on rows: the same rows go through the planner, through the reference, and their plans through
//! formatting.

use crate::rounds::{answer, Calls};
use compare::entries::{Answer, Library, Planner, LONGEST_TEXT};
use reference::{plan_named_row, write_plan, Plan, NAMES};
use std::hint::black_box;

/// The rows, the plans of those that are planned, and the memories that are used again and again.
pub struct RowCalls {
    names: Vec<u8>,
    rows: Vec<Vec<u8>>,
    plans: Vec<Plan>,
    buffer: Vec<u8>,
    text: Vec<u8>,
}

impl RowCalls {
    pub fn new(rows: Vec<Vec<u8>>) -> RowCalls {
        let names = NAMES.as_bytes().to_vec();
        let plans = rows.iter().filter_map(|row| plan_named_row(&names, row).ok()).collect();
        RowCalls { names, rows, plans, buffer: vec![0; LONGEST_TEXT], text: Vec::with_capacity(LONGEST_TEXT) }
    }

    pub fn plans(&self) -> usize {
        self.plans.len()
    }

    /// Writes the plans alone; gives the length of all texts.
    pub fn formatting(&mut self) -> u64 {
        let mut sum = 0;
        for plan in &self.plans {
            self.text.clear();
            write_plan(black_box(plan), &mut self.text);
            black_box(&mut self.text);
            sum += self.text.len() as u64;
        }
        sum
    }
}

impl Calls for RowCalls {
    fn count(&self) -> usize {
        self.rows.len()
    }

    fn ours(&mut self, place: usize) -> Answer {
        let (names, row) = (black_box(&mut self.names[..]), black_box(&mut self.rows[place][..]));
        let answer = Library.plan_row(Some(names), Some(row), Some(&mut self.buffer));
        black_box(&mut self.buffer);
        answer
    }

    fn reference(&mut self, place: usize) -> Answer {
        let outcome = plan_named_row(black_box(&self.names), black_box(&self.rows[place]));
        answer(outcome, write_plan, &mut self.text)
    }
}

#[cfg(test)]
mod tests {
    use super::*;
    use crate::rounds::Times;

    #[test]
    fn a_round_agrees() {
        let rows = ["8 4 1 2 1 0 0 1 1 19 7 0", "8 4 1 2 1 0 1 1 1 19 7 0", "x"];
        let mut calls = RowCalls::new(rows.map(|row| row.as_bytes().to_vec()).to_vec());
        assert_eq!((calls.count(), calls.plans()), (3, 2));
        assert_eq!(Times::default().add_round(&mut calls), Ok(()));
    }
}
