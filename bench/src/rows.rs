//! The part on rows: random ones that are planned, and random ones as they are drawn.

mod calls;

use crate::figures::median;
use crate::rounds::{timed, Calls, Times};
use calls::RowCalls;
use compare::entries::LONGEST_TEXT;
use reference::rows::{row, Rng};
use reference::Heading;

/// Draws the rows, times all rounds on them and prints the figures.
pub fn run(seed: u64, rows: u64, rounds: u64) -> Result<(), String> {
    println!("seed {seed}, {rows} rows, {rounds} rounds, medians of the rounds");
    println!("ours: planner_plan_row, lent a buffer of {LONGEST_TEXT} bytes that is not cleared between calls");
    println!("reference: plan_named_row and write_plan, into a reused Vec that is cleared between rows");
    println!("formatting: write_plan alone, of the plans that the reference computed before");
    let mut rng = Rng::new(seed);
    let planned = draw_rows(rows, || planned_row(&mut rng));
    let drawn = draw_rows(rows, || row(&mut rng, Heading::WithoutLoss));
    run_rows("planned rows", planned, rounds)?;
    run_rows("rows as drawn", drawn, rounds)
}

fn draw_rows(count: u64, draw: impl FnMut() -> Vec<u8>) -> Vec<Vec<u8>> {
    std::iter::repeat_with(draw).take(count as usize).collect()
}

/// The next row drawn that is planned.
fn planned_row(rng: &mut Rng) -> Vec<u8> {
    loop {
        let drawn = row(rng, Heading::WithoutLoss);
        if reference::plan_row(Heading::WithoutLoss, &drawn).is_ok() {
            return drawn;
        }
    }
}

/// Times all rounds on these rows and prints the figures.
fn run_rows(title: &str, rows: Vec<Vec<u8>>, rounds: u64) -> Result<(), String> {
    let mut calls = RowCalls::new(rows);
    let (mut times, mut formatting) = (Times::default(), Vec::new());
    for _ in 0..rounds {
        times.add_round(&mut calls)?;
        formatting.push(timed(|| calls.formatting()).0);
    }
    let (rows, plans) = (calls.count(), calls.plans());
    println!("{title}: {rows} rows, {plans} of them planned");
    println!("  ours       {:>9.0} rows per second", per_second(rows, &times.ours));
    println!("  reference  {:>9.0} rows per second", per_second(rows, &times.reference));
    println!("  formatting {:>9.0} plans per second", per_second(plans, &formatting));
    println!("  {}", times.ratio());
    Ok(())
}

/// The median of so many in each round's seconds.
fn per_second(count: usize, seconds: &[f64]) -> f64 {
    median(seconds.iter().map(|seconds| count as f64 / seconds).collect())
}

#[cfg(test)]
mod tests {
    use super::*;

    #[test]
    fn rows_per_second() {
        assert_eq!(per_second(10, &[1.0, 2.0, 5.0]), 5.0);
    }
}
