//! An independent simulator of "The run" of document 01.
//!
//! It holds the figures of a printed plan (slots, queue sizes, total delay, the sink's burst and
//! rate) against simulated radio trees. The run takes nothing from the planner but these figures.
//! The package also has its own reading of document 01's recurrences, with six deliberate
//! mutations, so that it can be shown that wrong figures are found out. The same is done for the
//! surveyed trees of request E3, with five mutations. By request E5 tries of a frame may fail, so that
//! an exchange lasts longer; the run has these tries too.

pub mod aim;
pub mod air;
pub mod attack;
pub mod bucket;
pub mod chance;
pub mod change;
pub mod drawn_rows;
pub mod failures;
pub mod figures;
pub mod hold;
pub mod link;
pub mod naive;
pub mod printed;
pub mod readings;
pub mod report;
pub mod row;
pub mod rows;
pub mod run;
pub mod setup;
pub mod shapes;
pub mod stretch;
pub mod surveys;
pub mod tally;
pub mod ties;
pub mod tree;
pub mod trial;
pub mod windows;
