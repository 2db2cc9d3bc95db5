//! The oracle: stun-proto's own agent answers a trace wherever it can, the second reading where it can't.
//!
//! The second reading plays every record. Where document 01's domain leaves the answer to the Rust, the
//! Rust agent gets the call too, and the two answers must be equal. A call that is refused by a number
//! the Rust doesn't have is not handed over: a refused call leaves everything as it was, so both stay in
//! step. Once a trace has left the domain for good (see `domain`), the Rust agent rests until the next
//! settings make a fresh one.

mod debug_text;
mod domain;
mod rust_agent;

use domain::Domain;
use records::{Answer, Record};
pub use rust_agent::RustAgent;
use std::panic::{catch_unwind, AssertUnwindSafe};

/// Who decided a line.
#[derive(Debug, Clone, Copy, PartialEq, Eq)]
pub enum Judge {
    /// The Rust agent; the second reading agrees.
    Rust,
    /// The second reading alone, which is ours.
    Reading,
}

/// One line of the oracle.
#[derive(Debug, Clone)]
pub struct Judged {
    pub answer: Answer,
    pub judge: Judge,
}

/// Where the Rust agent and the second reading part, or where the Rust agent broke.
#[derive(Debug)]
pub struct Disagreement {
    /// The record's number, from 1.
    pub number: usize,
    pub reading: Answer,
    /// Its answer, or what went wrong instead.
    pub rust: Result<Answer, String>,
}

impl std::fmt::Display for Disagreement {
    fn fmt(&self, f: &mut std::fmt::Formatter<'_>) -> std::fmt::Result {
        write!(f, "record {}: the second reading says `{}`, the Rust ", self.number, self.reading)?;
        match &self.rust {
            Ok(answer) => write!(f, "`{answer}`"),
            Err(fault) => write!(f, "broke: {fault}"),
        }
    }
}

/// A trace's replay by both.
pub struct Oracle<'a> {
    replay: reading::Replay<'a>,
    domain: Domain,
    rust: Option<RustAgent<true>>,
    number: usize,
}

impl<'a> Oracle<'a> {
    /// Before the first record.
    pub fn new(trace: &'a [u8]) -> Oracle<'a> {
        Oracle { replay: reading::Replay::new(trace), domain: Domain::default(), rust: None, number: 0 }
    }

    /// The second reading's agent as the last record left it.
    pub fn agent(&self) -> Option<&reading::Agent> {
        self.replay.agent()
    }

    /// The next record with its judged answer; none at the end.
    pub fn turn(&mut self) -> Option<Result<(Option<Record>, Judged), Disagreement>> {
        let reading::Turn { record, answer } = self.replay.next()?;
        self.number += 1;
        let left = match (&record, self.replay.agent()) {
            (Some(record), Some(agent)) => self.domain.leaves_to_rust(record, &answer, agent),
            _ => false,
        };
        if !left {
            return Some(Ok((record, Judged { answer, judge: Judge::Reading })));
        }
        let call = record.as_ref().expect("only a record is left to the Rust");
        let rust = self.ask_rust(call);
        Some(match rust {
            Ok(said) if said == answer => Ok((record, Judged { answer, judge: Judge::Rust })),
            rust => Err(Disagreement { number: self.number, reading: answer, rust }),
        })
    }

    /// The Rust agent's answer; a panic of it, or a transmission that isn't what was submitted, is a fault.
    fn ask_rust(&mut self, call: &Record) -> Result<Answer, String> {
        if let Record::Settings { tcp, statistics, rto } = call {
            self.rust = Some(RustAgent::new(*tcp, *statistics, rto));
            return Ok(Answer::Ok);
        }
        let agent = self.rust.as_mut().expect("settings inside the domain came first");
        catch_unwind(AssertUnwindSafe(|| agent.call(call))).map_err(|panic| {
            let text = panic.downcast_ref::<String>().map(String::as_str);
            text.or(panic.downcast_ref::<&str>().copied()).unwrap_or("a panic without text").replace('\n', " ")
        })
    }
}

/// All judged answers to a trace.
pub fn judge(trace: &[u8]) -> Result<Vec<Judged>, Disagreement> {
    let mut oracle = Oracle::new(trace);
    std::iter::from_fn(|| oracle.turn()).map(|turn| turn.map(|(_, judged)| judged)).collect()
}
