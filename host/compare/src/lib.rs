//! Compares a program's lines with the oracle's and the second reading's over many made traces.

mod boundaries;
mod difference;
mod plain;
mod program;
mod run;
mod shrink;
mod tally;

pub use difference::Difference;
pub use program::{Program, Replay};
pub use run::Run;
pub use tally::Tally;
