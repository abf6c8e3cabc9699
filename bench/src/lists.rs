//! The part on node lists: fixed ones of the most nodes that a list may have, and of half as many.

mod calls;
mod fixed;

use crate::figures::median;
use crate::rounds::Times;
use calls::{ListCalls, CALLS};
use compare::trees::entries::LONGEST_TREE_TEXT;
use fixed::{Fixed, SETTINGS};
use reference::{plan_tree, Beside};

/// Times all rounds on each list and prints the figures.
pub fn run(rounds: u64) -> Result<(), String> {
    let Beside { beacon_order, superframe_order, head, data, ack, loss, .. } = SETTINGS;
    println!("node lists, {rounds} rounds of {CALLS} calls for each, medians of the rounds");
    println!("settings: BO {beacon_order}, SO {superframe_order}, HEAD {head}, DATA {data}, ACK {ack}, LOSS {loss}");
    println!("ours: planner_plan_tree, lent a buffer of {LONGEST_TREE_TEXT} bytes that is not cleared between calls");
    println!("reference: plan_tree and write_tree_plan, into a reused Vec that is cleared between calls");
    fixed::lists().into_iter().try_for_each(|fixed| run_list(fixed, rounds))
}

/// Times all rounds on this list and prints the figures.
fn run_list(fixed: Fixed, rounds: u64) -> Result<(), String> {
    let (title, nodes, outcome) = (fixed.title, fixed.nodes(), outcome(&fixed));
    let mut calls = ListCalls::new(fixed);
    let mut times = Times::default();
    for _ in 0..rounds {
        times.add_round(&mut calls)?;
    }
    println!("{title}: {nodes} nodes, {outcome}");
    println!("  ours       {:>9.1} microseconds per call", microseconds(&times.ours));
    println!("  reference  {:>9.1} microseconds per call", microseconds(&times.reference));
    println!("  {}", times.ratio());
    Ok(())
}

/// Whether the list is planned, by the reference.
fn outcome(fixed: &Fixed) -> String {
    match plan_tree(&fixed.list, &fixed.beside) {
        Ok(_) => "planned".to_string(),
        Err(refusal) => format!("refused with number {}", refusal.number),
    }
}

/// The median of the microseconds that a call took in each round of so many seconds.
fn microseconds(seconds: &[f64]) -> f64 {
    median(seconds.iter().map(|seconds| seconds * 1e6 / f64::from(CALLS)).collect())
}

#[cfg(test)]
mod tests {
    use super::*;

    #[test]
    fn lists_are_planned_or_refused_as_said() {
        let outcomes: Vec<String> = fixed::lists().iter().map(outcome).collect();
        let each = ["planned", "planned", "planned", "planned", "refused with number 5"];
        assert_eq!(outcomes, [each, each].concat());
    }

    #[test]
    fn microseconds_of_a_call() {
        let seconds = [1.0, 3.0, 2.0].map(|microseconds| microseconds * f64::from(CALLS) / 1e6);
        assert!((microseconds(&seconds) - 2.0).abs() < 1e-9);
    }
}
