//! compare-trees SEED LISTS [INPUTS PLAN-TREE-PROGRAM]
//!
//! Compares the planner's entries for surveyed trees on LISTS random lists, and program `plan_tree` on INPUTS random
//! inputs, with the reference implementation; and, for one row in four lists, the planner's plans of rows with those of
//! the lists of their full trees. Exit status 0: no difference; 1: a difference, or something that lists can come to
//! did not occur; 2: wrong arguments.

use compare::entries::Library;
use compare::trees::{compare_inputs, compare_lists};
use std::path::Path;
use std::process::ExitCode;

fn main() -> ExitCode {
    let words: Vec<String> = std::env::args().skip(1).collect();
    let words: Vec<&str> = words.iter().map(String::as_str).collect();
    let done = match words[..] {
        [seed, lists] => numbers([seed, lists, "0"]).map(|numbers| run(numbers, None)),
        [seed, lists, inputs, program] => numbers([seed, lists, inputs]).map(|numbers| run(numbers, Some(program))),
        _ => None,
    };
    match done {
        None => {
            eprintln!("usage: compare-trees SEED LISTS [INPUTS PLAN-TREE-PROGRAM]");
            ExitCode::from(2)
        }
        Some(Ok(totals)) => {
            println!("{totals}");
            ExitCode::SUCCESS
        }
        Some(Err(report)) => {
            println!("{report}");
            ExitCode::FAILURE
        }
    }
}

fn numbers(words: [&str; 3]) -> Option<[u64; 3]> {
    let numbers: Option<Vec<u64>> = words.iter().map(|word| word.parse().ok()).collect();
    numbers?.try_into().ok()
}

fn run([seed, lists, inputs]: [u64; 3], program: Option<&str>) -> Result<String, String> {
    println!("seed {seed}");
    let mut totals = compare_lists(&Library, seed, lists)?;
    if let Some(program) = program {
        compare_inputs(Path::new(program), seed, inputs, &mut totals)?;
    }
    Ok(totals.to_string())
}
