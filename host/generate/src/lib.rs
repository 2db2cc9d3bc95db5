//! Makes traces from seeds: inside the domain of the differential runs, outside it, and short ones exhaustively.
//!
//! The same family and seed give the same trace on every machine. A trace is made step by step beside the
//! second reading, whose state tells where the boundaries lie: what is due, what ends, who is known.

mod inside;
mod material;
mod outside;
mod random;
mod script;
mod short;

/// A way of making traces.
#[derive(Debug, Clone, Copy, PartialEq, Eq)]
pub enum Family {
    /// Every line is the Rust's to decide.
    Inside,
    /// Refusals of every number, broken records, limits passed.
    Outside,
    /// Every sequence of a few calls on one request, the shorter ones first.
    Short,
}

impl Family {
    /// All of them.
    pub const ALL: [Family; 3] = [Family::Inside, Family::Outside, Family::Short];

    /// Its name on a command line.
    pub fn name(self) -> &'static str {
        match self {
            Family::Inside => "inside",
            Family::Outside => "outside",
            Family::Short => "short",
        }
    }

    /// The trace of this seed.
    pub fn trace(self, seed: u64) -> Vec<u8> {
        match self {
            Family::Inside => inside::trace(seed),
            Family::Outside => outside::trace(seed),
            Family::Short => short::trace(seed),
        }
    }
}

pub use short::sequences_up_to;
