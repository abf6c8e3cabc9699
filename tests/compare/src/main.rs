//! compare SEED ROWS TEXTS [PLAN-PROGRAM [EXPLAIN-PROGRAM]]
//!
//! Compares the planner's entries for C on ROWS random rows, and programs `plan` and `explain` on TEXTS random inputs,
//! with the reference implementation; and, for some more rows and inputs under 12 names, with their own answers to the
//! same under 13 names with LOSS 0. Exit status 0: no difference; 1: a difference, or something that rows can reach
//! was not reached; 2: wrong arguments.

use compare::calls::{Calls, Differing};
use compare::entries::Library;
use compare::program;
use compare::totals::Totals;
use reference::rows::{self, Rng};
use std::env;
use std::path::{Path, PathBuf};
use std::process::ExitCode;

/// From this many rows on, everything that rows can reach must have been reached.
const ENOUGH_ROWS: u64 = 100_000;
/// Rows and inputs that are held against their twin, one for so many others.
const ROWS_PER_TWIN: u64 = 10;
const TEXTS_PER_TWIN: u64 = 4;

struct Arguments {
    seed: u64,
    rows: u64,
    texts: u64,
    plan: PathBuf,
    explain: PathBuf,
}

fn main() -> ExitCode {
    let Some(arguments) = read_arguments() else {
        eprintln!("usage: compare SEED ROWS TEXTS [PLAN-PROGRAM [EXPLAIN-PROGRAM]]");
        return ExitCode::from(2);
    };
    println!("seed {}", arguments.seed);
    match run(&arguments) {
        Ok(totals) => {
            println!("{totals}");
            ExitCode::SUCCESS
        }
        Err(report) => {
            println!("{report}");
            ExitCode::FAILURE
        }
    }
}

fn read_arguments() -> Option<Arguments> {
    let given: Vec<String> = env::args().skip(1).collect();
    let number = |index: usize| given.get(index).and_then(|text| text.parse().ok());
    let program = |index: usize, name| given.get(index).map_or_else(|| default_program(name), PathBuf::from);
    let (plan, explain) = (program(3, "plan"), program(4, "explain"));
    let arguments = Arguments { seed: number(0)?, rows: number(1)?, texts: number(2)?, plan, explain };
    (given.len() <= 5).then_some(arguments)
}

/// The program of this name in its crate's out/ of the repository or, if it is not there, of the current directory.
fn default_program(name: &str) -> PathBuf {
    let built = Path::new("crates").join(name).join("out").join(name);
    let beside = Path::new(env!("CARGO_MANIFEST_DIR")).join("../..").join(&built);
    if beside.exists() {
        beside
    } else {
        built
    }
}

fn run(arguments: &Arguments) -> Result<Totals, String> {
    let mut totals = compare_rows(arguments)?;
    compare_texts(arguments, &mut totals)?;
    check_reach(arguments, &totals)?;
    Ok(totals)
}

fn compare_rows(arguments: &Arguments) -> Result<Totals, String> {
    let mut calls = Calls::new(&Library, arguments.seed);
    for index in 0..arguments.rows {
        let described = |differing: Differing| {
            let Differing { names, row, report } = differing;
            let (names, row) = (names.escape_ascii(), row.escape_ascii());
            format!("DIFFERENCE: seed {}, row {index}\nnames \"{names}\"\nrow \"{row}\"\n{report}", arguments.seed)
        };
        calls.next_row().map_err(described)?;
        if index % ROWS_PER_TWIN == 0 {
            calls.next_twins().map_err(described)?;
        }
    }
    calls.refusals().map_err(|report| format!("DIFFERENCE: seed {}, refusals\n{report}", arguments.seed))?;
    Ok(calls.totals)
}

fn compare_texts(arguments: &Arguments, totals: &mut Totals) -> Result<(), String> {
    let mut rng = Rng::new(!arguments.seed);
    for index in 0..arguments.texts {
        let described = |text: &[u8], report: String| {
            let text = text.escape_ascii();
            format!("DIFFERENCE: seed {}, text {index}\ninput \"{text}\"\n{report}", arguments.seed)
        };
        let text = rows::text(&mut rng);
        let length = compare_text(arguments, &text).map_err(|report| described(&text, report))?;
        totals.note_text(length);
        if index % TEXTS_PER_TWIN == 0 {
            let twins = rows::twin_texts(&mut rng);
            let length = compare_twins(arguments, &twins).map_err(|report| described(&twins[0], report))?;
            totals.note_twin_texts(length);
        }
    }
    Ok(())
}

/// Both programs on an input under 12 names and on its twin.
fn compare_twins(arguments: &Arguments, twins: &[Vec<u8>; 2]) -> Result<usize, String> {
    Ok(program::compare_twins(&arguments.plan, twins)? + program::compare_twins(&arguments.explain, twins)?)
}

/// Both programs on the same input. Returns the number of bytes compared.
fn compare_text(arguments: &Arguments, text: &[u8]) -> Result<usize, String> {
    let plans = program::compare(&arguments.plan, text, &reference::program(text))?;
    let lines = program::compare(&arguments.explain, text, &reference::explanations(text))?;
    Ok(plans + lines)
}

fn check_reach(arguments: &Arguments, totals: &Totals) -> Result<(), String> {
    let missing = if arguments.rows < ENOUGH_ROWS { Vec::new() } else { totals.missing() };
    let unexpected = totals.seen.unexpected();
    if missing.is_empty() && unexpected.is_empty() {
        Ok(())
    } else {
        Err(format!("NOT REACHED: {}; REACHED UNEXPECTEDLY: {}", missing.join(", "), unexpected.join(", ")))
    }
}
