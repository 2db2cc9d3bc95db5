//! The replay (document 01, "Replay program"): a trace's records, one after another, and their answers.

use crate::refusals::settings_refused;
use crate::Agent;
use records::{lines, Answer, Read, Record};
use std::ffi::OsString;
use std::fs::File;
use std::io::Read as _;

/// A replay in progress.
#[derive(Debug)]
pub struct Replay<'a> {
    rest: &'a [u8],
    agent: Option<Agent>,
    ended: bool,
}

/// One record of a trace with its answer.
#[derive(Debug)]
pub struct Turn {
    /// None for what is no record.
    pub record: Option<Record>,
    pub answer: Answer,
}

impl<'a> Replay<'a> {
    /// Before the first record.
    pub fn new(trace: &'a [u8]) -> Replay<'a> {
        Replay { rest: trace, agent: None, ended: false }
    }

    /// The agent as the last record left it; none before the first settings.
    pub fn agent(&self) -> Option<&Agent> {
        self.agent.as_ref()
    }

    /// Plays a record that is given and not read; for who makes a trace step by step.
    pub fn play(&mut self, record: &Record) -> Answer {
        let answer = match (record, &mut self.agent) {
            (Record::Settings { rto, .. }, _) if settings_refused(rto) => Answer::Refused(2),
            (Record::Settings { tcp, statistics, rto }, agent) => {
                *agent = Some(Agent::new(*tcp, *statistics, *rto));
                Answer::Ok
            }
            (call, Some(agent)) => agent.call(call),
            (_, None) => Answer::Bad,
        };
        self.ended |= self.agent.is_none();
        answer
    }
}

impl Iterator for Replay<'_> {
    type Item = Turn;

    fn next(&mut self) -> Option<Turn> {
        if self.ended {
            return None;
        }
        match Record::read(self.rest) {
            Read::End => None,
            Read::Bad => {
                self.ended = true;
                Some(Turn { record: None, answer: Answer::Bad })
            }
            Read::Record(record, rest) => {
                self.rest = rest;
                let answer = self.play(&record);
                Some(Turn { record: Some(record), answer })
            }
        }
    }
}

/// The trace in a file, or on standard input where none is named.
pub fn read_trace(file: Option<OsString>) -> std::io::Result<Vec<u8>> {
    let mut trace = Vec::new();
    match file {
        Some(file) => File::open(file)?.read_to_end(&mut trace)?,
        None => std::io::stdin().read_to_end(&mut trace)?,
    };
    Ok(trace)
}

/// All answers to a trace.
pub fn replay(trace: &[u8]) -> Vec<Answer> {
    Replay::new(trace).map(|turn| turn.answer).collect()
}

/// The lines that fit whole into a lent buffer, zeros behind them; the count of their bytes.
pub fn replay_into(trace: &[u8], out: &mut [u8]) -> usize {
    let text = lines(&replay(trace));
    let fitting = text.split_inclusive('\n').scan(0, |end, line| {
        *end += line.len();
        Some(*end)
    });
    let length = fitting.take_while(|&end| end <= out.len()).last().unwrap_or(0);
    out.fill(0);
    out[..length].copy_from_slice(&text.as_bytes()[..length]);
    length
}
