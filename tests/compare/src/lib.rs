//! Holds the planner's entries for C and its programs against the reference implementation of document 01 and of
//! requests E1, E2, E3 and E5.

pub mod buffers;
mod caller;
pub mod calls;
pub mod comparison;
pub mod difference;
pub mod entries;
pub mod lent;
pub mod program;
pub mod reasons;
pub mod totals;
pub mod trees;
mod twins;
#[cfg(test)]
mod wrong;
