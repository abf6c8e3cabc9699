//! Surveyed trees (request E3 of document 02) in the run of document 01: each node has its own token
//! bucket and its own link's SLOTS and BUFFER, each frame its own node's ROUTE, and all frames together
//! the largest ROUTE.

pub mod attack;
pub mod case;
pub mod drawn;
pub mod figures;
pub mod fixed;
pub mod folder;
pub mod printed;
pub mod survey;
pub mod tally;
