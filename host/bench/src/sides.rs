//! Who plays a trace: the port, the Rust agent behind the bench's own reader and writer, and the Rust agent's calls alone.

use oracle::RustAgent;
use records::{Answer, Read, Record};
use std::hint::black_box;
use std::io::Write;

/// One of those that are timed.
#[derive(Clone, Copy)]
pub enum Side {
    Port,
    Rust,
    /// The Rust agent on records that are read already, without lines: what is left of `Rust` when reading and writing cost nothing.
    Calls,
}

impl Side {
    /// In the order of the table's columns.
    pub const ALL: [Side; 3] = [Side::Port, Side::Rust, Side::Calls];

    /// The side of this name.
    pub fn named(name: &str) -> Option<Side> {
        match name {
            "port" => Some(Side::Port),
            "rust" => Some(Side::Rust),
            "calls" => Some(Side::Calls),
            _ => None,
        }
    }

    /// Plays a trace, given as bytes and as records.
    pub fn play(self, trace: &[u8], records: &[Record], out: &mut [u8]) {
        match self {
            Side::Port => _ = black_box(port::replay(black_box(trace), out)),
            Side::Rust => _ = black_box(replay(black_box(trace), out)),
            Side::Calls => calls(black_box(records)),
        }
    }
}

/// The replay on the Rust agent alone: lines at the start of the buffer, zeros behind them, the count of the lines' bytes. The trace has
/// only records, and lines that fit.
pub fn replay(trace: &[u8], out: &mut [u8]) -> usize {
    let room = out.len();
    let mut free = &mut *out;
    let mut agent = None;
    let mut rest = trace;
    let mut number = 1;
    while let Read::Record(record, behind) = Record::read(rest) {
        let answer = call(&mut agent, &record);
        writeln!(free, "{number} {answer}").expect("the lines fit, as the port's do");
        number += 1;
        rest = behind;
    }
    free.fill(0);
    room - free.len()
}

fn calls(records: &[Record]) {
    let mut agent = None;
    for record in records {
        black_box(call(&mut agent, record));
    }
}

/// A record's answer; settings make the agent.
fn call(agent: &mut Option<RustAgent<false>>, record: &Record) -> Answer {
    match (record, agent) {
        (Record::Settings { tcp, statistics, rto }, agent) => {
            *agent = Some(RustAgent::new(*tcp, *statistics, rto));
            Answer::Ok
        }
        (call, Some(agent)) => agent.call(call),
        (_, None) => unreachable!("every trace begins with settings"),
    }
}
