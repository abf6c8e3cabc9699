//! bench SEED ROWS ROUNDS
//!
//! Times `planner_plan_row` and the reference implementation on the same random rows, and `planner_plan_tree` and the
//! reference implementation on the same fixed node lists, in one process and by turns.
//! Exit status 0: done; 1: the two did not give the same answers; 2: wrong arguments.

mod figures;
mod lists;
mod rounds;
mod rows;

use std::env;
use std::process::ExitCode;

fn main() -> ExitCode {
    let given: Option<Vec<u64>> = env::args().skip(1).map(|text| text.parse().ok()).collect();
    let Some(&[seed, rows @ 1..=u64::MAX, rounds @ 1..=u64::MAX]) = given.as_deref() else {
        eprintln!("usage: bench SEED ROWS ROUNDS");
        return ExitCode::from(2);
    };
    match rows::run(seed, rows, rounds).and_then(|()| lists::run(rounds)) {
        Ok(()) => ExitCode::SUCCESS,
        Err(report) => {
            println!("{report}");
            ExitCode::FAILURE
        }
    }
}
