//! Times the port against the Rust agent on the same traces, in one process and in turns; `tools/benchmarks` builds and runs it.
//!
//! bench ROUNDS                a table: nanoseconds a record, the best of that many rounds
//! bench traces                each trace's name, how many records it has, and the table's words for it
//! bench play SIDE NAME TIMES  plays one trace on `port`, `rust` or `calls`, and prints nothing: for counting instructions
//!
//! A trace that is played is first checked: the port and the Rust must give the same lines.

mod sides;
mod traces;

use records::Record;
use sides::Side;
use std::process::ExitCode;
use std::time::{Duration, Instant};
use traces::Trace;

/// A trace ready to be played, with a buffer of the lines' length: behind the lines nothing is left to clear.
struct Ready {
    trace: Vec<u8>,
    records: Vec<Record>,
    out: Vec<u8>,
}

impl Ready {
    /// Panics where the port and the Rust differ.
    fn new(trace: &Trace) -> Ready {
        let bytes = trace.bytes();
        let lines = port::lines(&bytes);
        let mut out = vec![0; lines.len()];
        assert_eq!(sides::replay(&bytes, &mut out), lines.len(), "{}: length of the lines", trace.name);
        assert!(out == lines, "{}: the port and the Rust give different lines", trace.name);
        Ready { trace: bytes, records: trace.records.clone(), out }
    }

    /// One replay; the buffer is overwritten first, outside the time.
    fn time(&mut self, side: Side) -> Duration {
        self.out.fill(0xAA);
        let start = Instant::now();
        side.play(&self.trace, &self.records, &mut self.out);
        start.elapsed()
    }

    /// Nanoseconds a record on each side: the least of many rounds, the sides in turns.
    fn best(&mut self, rounds: u32) -> [f64; 3] {
        let mut best = [Duration::MAX; 3];
        for _ in 0..rounds {
            for (side, best) in Side::ALL.into_iter().zip(&mut best) {
                *best = self.time(side).min(*best);
            }
        }
        best.map(|time| time.as_nanos() as f64 / self.records.len() as f64)
    }
}

fn main() -> ExitCode {
    let words: Vec<String> = std::env::args().skip(1).collect();
    match words.iter().map(String::as_str).collect::<Vec<_>>()[..] {
        ["traces"] => {
            traces::all().iter().for_each(|trace| println!("{} {} {}", trace.name, trace.records.len(), trace.what))
        }
        ["play", side, name, times] => {
            let trace = traces::all().into_iter().find(|trace| trace.name == name);
            let (Some(side), Some(trace), Ok(times)) = (Side::named(side), trace, times.parse()) else {
                return usage();
            };
            let mut ready = Ready::new(&trace);
            (0..times).for_each(|_: u32| side.play(&ready.trace, &ready.records, &mut ready.out));
        }
        [rounds] => match rounds.parse() {
            Ok(rounds) => table(rounds),
            Err(_) => return usage(),
        },
        _ => return usage(),
    }
    ExitCode::SUCCESS
}

fn usage() -> ExitCode {
    eprintln!("bench ROUNDS | bench traces | bench play port|rust|calls NAME TIMES");
    ExitCode::from(2)
}

fn table(rounds: u32) {
    println!("| trace | port | Rust | port / Rust | Rust, calls alone |");
    println!("|---|---|---|---|---|");
    for trace in traces::all() {
        let [port, rust, calls] = Ready::new(&trace).best(rounds);
        println!("| {} | {port:.0} | {rust:.0} | {:.2} | {calls:.0} |", trace.what, port / rust);
    }
}
