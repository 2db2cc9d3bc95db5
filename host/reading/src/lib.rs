//! Ours: a second reading of document 01, plain and slow, that decides what the Rust agent can't.
//!
//! It is written from document 01 and the project's readings of it, and not from the Rust. Numbers are
//! kept in 128 bits, waits are written out as lists, and the table is an unsorted list that is searched
//! for the smallest identifier, so that little can go wrong here in the way it could in a port.

mod agent;
mod refusals;
mod replay;
mod request;
mod statistics;

pub use agent::Agent;
pub use refusals::ROWS;
pub use replay::{read_trace, replay, replay_into, Replay, Turn};
pub use request::{Request, Standing, Waits};
pub use statistics::Statistics;
