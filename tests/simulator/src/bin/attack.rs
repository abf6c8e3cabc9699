//! `attack SEED RUNS [PRINTED]`: RUNS runs over the fixed list of rows, first the directed ones (all
//! of them, however small RUNS is) and then drawn ones, held against the right plan: the one in file
//! PRINTED, if given, which must agree with the own figures line by line. The same runs are held
//! against six wrong plans, each of which must be found out. There must be runs with every LOSS.
//! `attack drawn SEED ROWS`: the directed runs and some drawn ones over so many drawn rows, held
//! against the own figures.
//! `attack rows`: the list of rows as an input of program `plan`.
//! `attack plans`: what program `plan` should print for them.
//! `attack trees SEED RUNS [FOLDER]`: the same with surveyed trees, the fixed ones and drawn ones, or
//! those of FOLDER with the plans that stand there; and with five wrong plans.
//! `attack lists SEED FOLDER`: writes the fixed and drawn trees there, as inputs of program
//! `plan_tree`.

use std::path::Path;
use std::process::ExitCode;

use simulator::attack::{self, ON_EVERY_TREE, ON_ONE_TREE};
use simulator::chance::Chance;
use simulator::change;
use simulator::drawn_rows;
use simulator::figures::{self, Answer, Version};
use simulator::hold::{Reach, CLAIMS};
use simulator::printed;
use simulator::report::Tally;
use simulator::row::NAMES;
use simulator::rows;
use simulator::run::Outcome;
use simulator::setup::Setup;
use simulator::surveys::survey::Survey;
use simulator::surveys::{self, drawn, fixed, folder};
use simulator::trial::{self, Case};

const USAGE: &str = "usage: attack SEED RUNS [PRINTED] | attack drawn SEED ROWS | attack rows | attack plans | \
                     attack trees SEED RUNS [FOLDER] | attack lists SEED FOLDER";

/// Drawn runs on each drawn row.
const RUNS_ON_DRAWN: u64 = 20;

/// Surveyed trees that are drawn, beside the fixed ones: planned ones, and any.
const DRAWN_PLANNED: usize = 120;
const DRAWN_ANY: usize = 40;

fn main() -> ExitCode {
    let words: Vec<String> = std::env::args().skip(1).collect();
    let words: Vec<&str> = words.iter().map(String::as_str).collect();
    let done = match words[..] {
        ["rows"] => {
            println!("{NAMES}");
            rows::all().iter().for_each(|row| println!("{row}"));
            Ok(())
        }
        ["plans"] => {
            own_answers().iter().for_each(|answer| print!("{}", printed::text(answer)));
            Ok(())
        }
        [seed, runs] => attack_rows(seed, runs, None),
        ["drawn", seed, count] => attack_drawn_rows(seed, count),
        ["trees", seed, runs] => attack_trees(seed, runs, None),
        ["trees", seed, runs, folder] => attack_trees(seed, runs, Some(folder)),
        ["lists", seed, folder] => number(seed).and_then(|seed| folder::write(Path::new(folder), &surveys(seed))),
        [seed, runs, printed] => attack_rows(seed, runs, Some(printed)),
        _ => Err(USAGE.into()),
    };
    match done {
        Ok(()) => ExitCode::SUCCESS,
        Err(why) => {
            eprintln!("{why}");
            ExitCode::FAILURE
        }
    }
}

fn own_answers() -> Vec<Answer> {
    rows::all().iter().map(|row| figures::answer(row, Version::Right)).collect()
}

/// The answers in a file with the output of program `plan` for the list of rows.
fn printed_answers(path: &str) -> Result<Vec<Answer>, String> {
    let text = std::fs::read_to_string(path).map_err(|why| format!("{path}: {why}"))?;
    let answers = printed::read(&text)?;
    if answers.len() != rows::all().len() {
        return Err(format!("{} rows answered, {} asked", answers.len(), rows::all().len()));
    }
    Ok(answers)
}

/// Where own and printed answers differ: the row and the first line that differs.
fn differences(own: &[Answer], printed: &[Answer]) -> Vec<String> {
    let mut found = Vec::new();
    for ((row, own), answer) in rows::all().iter().zip(own).zip(printed) {
        let (own, answer) = (printed::text(own), printed::text(answer));
        if own != answer {
            let mut lines = own.lines().zip(answer.lines());
            let (mine, theirs) = lines.find(|(mine, theirs)| mine != theirs).unwrap_or((&own, &answer));
            found.push(format!("row {row}\n  printed {theirs}\n  own     {mine}"));
        }
    }
    found
}

/// The setups of one row that came closest with each claim, from which others are made.
type Best = [Option<(f64, Setup)>; 5];

/// All runs so far.
struct Attack {
    cases: Vec<Case>,
    best: Vec<Best>,
    tally: Tally,
    chance: Chance,
}

fn attack_rows(seed: &str, runs: &str, path: Option<&str>) -> Result<(), String> {
    let (seed, runs) = (number(seed)?, number(runs)?);
    println!("seed {seed}");
    let own = own_answers();
    let held = path.map_or(Ok(own.clone()), printed_answers)?;
    let different = differences(&own, &held);
    different.iter().for_each(|difference| println!("{difference}"));
    let mut cases = Vec::new();
    for (row, answer) in rows::all().into_iter().zip(&held) {
        cases.extend(Case::of(row, answer)?);
    }
    if cases.is_empty() {
        return Err("no row is planned".into());
    }
    let source = if path.is_some() { "printed" } else { "own" };
    println!("{} rows, {} of them planned, {source} figures held", held.len(), cases.len());
    let mut attack = Attack::new(cases, Chance::new(seed));
    attack.all(runs)?;
    print!("{}", attack.tally.text());
    check_tally(&attack.tally.survivors(), &attack.tally.untried())?;
    if !different.is_empty() {
        return Err(format!("printed and own figures differ on {} rows", different.len()));
    }
    Ok(())
}

/// Every wrong version was found out, and there were runs with every LOSS.
fn check_tally<V: std::fmt::Debug>(survivors: &[V], untried: &[u64]) -> Result<(), String> {
    if !survivors.is_empty() {
        return Err(format!("wrong figures that no run found out: {survivors:?}"));
    }
    if !untried.is_empty() {
        return Err(format!("no run with all failed tries that may be with LOSS {untried:?}"));
    }
    Ok(())
}

fn attack_drawn_rows(seed: &str, count: &str) -> Result<(), String> {
    let (seed, count) = (number(seed)?, number(count)?);
    println!("seed {seed}");
    let mut attack = Attack::new(Vec::new(), Chance::new(seed));
    for _ in 0..count {
        let row = drawn_rows::drawn(&mut attack.chance, 14);
        let case = Case::of(row, &figures::answer(&row, Version::Right))?;
        attack.cases = case.into_iter().collect();
        attack.best = vec![Best::default()];
        attack.directed(0)?;
        for _ in 0..RUNS_ON_DRAWN {
            attack.drawn(0)?;
        }
    }
    print!("{}", attack.tally.text());
    Ok(())
}

/// The fixed surveyed trees and drawn ones.
fn surveys(seed: u64) -> Vec<Survey> {
    let mut chance = Chance::new(seed);
    let mut surveys = fixed::all();
    surveys.extend((0..DRAWN_PLANNED).map(|_| drawn::planned(&mut chance)));
    surveys.extend((0..DRAWN_ANY).map(|_| drawn::any(&mut chance)));
    surveys
}

fn attack_trees(seed: &str, runs: &str, folder: Option<&str>) -> Result<(), String> {
    let (seed, runs) = (number(seed)?, number(runs)?);
    println!("seed {seed}");
    let own = |survey: Survey| {
        let answer = surveys::figures::answer(&survey, surveys::figures::Version::Right);
        (survey, answer)
    };
    let held = match folder {
        None => surveys(seed).into_iter().map(own).collect(),
        Some(folder) => folder::read(Path::new(folder))?,
    };
    let (trees, mut cases, mut different) = (held.len(), Vec::new(), 0);
    for (survey, answer) in held {
        let (survey, mine) = own(survey);
        if mine != answer {
            different += 1;
            let [printed, own] = [answer.clone(), mine].map(|answer| surveys::printed::text(&answer));
            println!("settings {}\n{}printed\n{printed}own\n{own}", survey.settings(), survey.list());
        }
        cases.extend(surveys::case::Case::of(survey, &answer)?);
    }
    let source = if folder.is_some() { "printed" } else { "own" };
    println!("{trees} surveyed trees, {} of them planned, {source} figures held", cases.len());
    let mut attack = surveys::attack::Attack::new(cases, Chance::new(seed));
    attack.all(runs)?;
    print!("{}", attack.tally.text());
    check_tally(&attack.tally.survivors(), &attack.tally.untried())?;
    if different > 0 {
        return Err(format!("printed and own figures differ on {different} trees"));
    }
    Ok(())
}

fn number(word: &str) -> Result<u64, String> {
    word.parse().map_err(|_| USAGE.into())
}

impl Attack {
    fn new(cases: Vec<Case>, chance: Chance) -> Attack {
        let best = cases.iter().map(|_| Best::default()).collect();
        Attack { cases, best, tally: Tally::default(), chance }
    }

    /// The directed runs of all rows, then drawn ones until there are `runs` runs.
    fn all(&mut self, runs: u64) -> Result<(), String> {
        for case in 0..self.cases.len() {
            self.directed(case)?;
        }
        println!("{} directed runs", self.tally.runs);
        while self.tally.runs < runs {
            let case = self.chance.index(self.cases.len());
            self.drawn(case)?;
        }
        Ok(())
    }

    /// The directed runs of a row.
    fn directed(&mut self, case: usize) -> Result<(), String> {
        let trees = attack::directed_trees(&self.cases[case].row);
        for (number, tree) in trees.iter().enumerate() {
            let more = if number + 1 == trees.len() { &ON_ONE_TREE[..] } else { &[] };
            for (place, method) in ON_EVERY_TREE.iter().chain(more).enumerate() {
                let Case { row, right, .. } = &self.cases[case];
                let setup = attack::directed(row, right, tree, *method, &mut self.chance)?;
                let outcome = self.run(case, &setup)?;
                if place == 0 {
                    let seed = self.chance.draw();
                    if let Some(setup) = attack::watched(&setup, &outcome, seed) {
                        self.run(case, &setup)?;
                    }
                }
            }
        }
        Ok(())
    }

    /// A drawn run of a row: a new one, or a small change of one that came close.
    fn drawn(&mut self, case: usize) -> Result<(), String> {
        let Case { row, right, .. } = &self.cases[case];
        let claim = self.chance.index(CLAIMS.len());
        let close = if self.chance.once_in(3) { &None } else { &self.best[case][claim] };
        let setup = match close {
            Some((_, setup)) => change::changed(row, right, setup, &mut self.chance)?,
            None => attack::drawn(row, right, &mut self.chance)?,
        };
        self.run(case, &setup).map(|_| ())
    }

    /// Runs a setup, holds it and takes it into the tally; a violation of the right figures is told
    /// with all that is needed to make the run again.
    fn run(&mut self, number: usize, setup: &Setup) -> Result<Outcome, String> {
        let case = &self.cases[number];
        let outcome = case.run(setup)?;
        let reaches = case.hold(setup, &outcome)?;
        let over: Vec<String> = reaches.iter().filter(|reach| reach.is_over()).map(Reach::to_string).collect();
        if !over.is_empty() {
            return Err(format!("VIOLATION\n{}\n{}", over.join("\n"), trial::describe(case, setup)));
        }
        self.tally.take(case, setup, &outcome, &reaches)?;
        for (best, reach) in self.best[number].iter_mut().zip(&reaches) {
            if best.as_ref().is_none_or(|(share, _)| reach.share() >= *share) {
                *best = Some((reach.share(), setup.clone()));
            }
        }
        Ok(outcome)
    }
}
