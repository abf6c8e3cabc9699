//! A second implementation of the planner that document 01 ("Cluster-tree reservation planner for battery radio
//! sensors") sets out, with the reasons of request E1 of document 02, the beacon's time of request E2, the surveyed
//! trees of request E3 and the failed tries of request E5. It was written from the words of those documents alone, so
//! that another implementation can be compared with it; only the phrases of the reasons and the arguments of program
//! `plan_tree`, which document 02 leaves open, were given. Words such as BI, S, X, L, k, m and T are those of document
//! 01, and g is that of request E2.

mod air;
mod heading;
pub mod lists;
mod reason;
pub mod rows;
mod settings;
mod survey;
mod text;
mod tree;

pub use heading::{Heading, LOSS_NAMES, NAMES};
pub use reason::{line_of, read_reason, tree_line_of, whole_line, Phrase, PLANNED, TREE_PLANNED};
pub use settings::Settings;
pub use survey::{
    plan_tree, plan_tree_checking, tree_program, write_tree_plan, Beside, Network, NodeLine, Superframe, TreeLink,
    TreeOutcome, TreePlan, LIST_NAMES, MOST_NODES,
};
pub use text::{explanations, program, write_plan, INPUT_LIMIT};
pub use tree::{reservable, reservations, Kind, Line, Plan};

/// A refusal: its number in the table of document 01 ("Rows of settings") or in document 02, its place, and what its
/// line says.
#[derive(Clone, Copy, Debug, PartialEq, Eq)]
pub struct Refusal {
    pub number: u32,
    pub place: u32,
    /// The words of its line.
    pub phrase: Phrase,
    /// The values concerned, in the order in which the line names them; 0 where it names fewer than two.
    pub values: [u64; 2],
}

impl Refusal {
    /// A refusal with the number that the phrase is for.
    fn new(phrase: Phrase, place: u32, values: [u64; 2]) -> Refusal {
        Refusal { number: phrase.number(), place, phrase, values }
    }

    /// A refusal whose line names no values.
    fn without_values(phrase: Phrase, place: u32) -> Refusal {
        Refusal::new(phrase, place, [0, 0])
    }
}

/// What planning a row gives: its plan, or the first condition that failed.
pub type Outcome = Result<Plan, Refusal>;

/// Plans a line of values, given without its LF, under one of the two name lines: conditions 2 to 7 in the order of the
/// table.
pub fn plan_row(heading: Heading, row: &[u8]) -> Outcome {
    plan_row_counting(heading, row, reservable)
}

/// Plans a line of values under a name line, both given without their LF: conditions 1 to 7.
pub fn plan_named_row(names: &[u8], row: &[u8]) -> Outcome {
    plan_named_row_counting(names, row, reservable)
}

/// Plans like `plan_named_row`, but with this count of the slots that a router at a depth may reserve. It is for tests
/// that want a planner with a wrong count.
pub fn plan_named_row_counting(names: &[u8], row: &[u8], count: impl Fn(&Settings, usize) -> u64) -> Outcome {
    plan_row_counting(heading::read_names(names)?, row, count)
}

fn plan_row_counting(heading: Heading, row: &[u8], count: impl Fn(&Settings, usize) -> u64) -> Outcome {
    let settings = settings::read(heading, row)?;
    Ok(tree::reserve_counting(&settings, count)?.plan())
}
