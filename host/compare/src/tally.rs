//! Counts what a run met, so that an empty run can't look good.

use crate::boundaries::{self, BROKEN, MET};
use generate::Family;
use oracle::{Judge, Judged};
use records::{Read, Record};
use std::collections::BTreeMap;
use std::fmt;

/// Answers and refusals that a complete run has seen. Number 1 needs a broken state, which no trace
/// makes, and 12 the query for the outstanding count, which no record asks for.
const ANSWERS: [&str; 22] = [
    "bad",
    "cancelled",
    "no",
    "none",
    "ok",
    "refused 10",
    "refused 11",
    "refused 2",
    "refused 3",
    "refused 4",
    "refused 5",
    "refused 6",
    "refused 7",
    "refused 8",
    "refused 9",
    "send",
    "sha1",
    "sha256",
    "stats",
    "timeout",
    "wait",
    "yes",
];

/// What was met, and how often.
#[derive(Debug, Default)]
pub struct Tally {
    traces: BTreeMap<&'static str, u64>,
    /// Traces of which the Rust decided every line.
    all_rust: u64,
    kinds: BTreeMap<u8, u64>,
    by_rust: u64,
    by_reading: u64,
    answers: BTreeMap<String, u64>,
    boundaries: BTreeMap<&'static str, u64>,
}

impl Tally {
    /// Counts a trace and its judged answers.
    pub fn count(&mut self, family: Family, trace: &[u8], judged: &[Judged]) {
        *self.traces.entry(family.name()).or_default() += 1;
        self.all_rust += u64::from(judged.iter().all(|line| line.judge == Judge::Rust));
        let mut replay = reading::Replay::new(&[]);
        let mut rest = trace;
        for line in judged {
            match line.judge {
                Judge::Rust => self.by_rust += 1,
                Judge::Reading => self.by_reading += 1,
            }
            *self.answers.entry(line.answer.kind()).or_default() += 1;
            match Record::read(rest) {
                Read::Record(record, behind) => {
                    *self.kinds.entry(record.kind()).or_default() += 1;
                    let met = boundaries::met(replay.agent(), &record, &line.answer);
                    met.for_each(|name| *self.boundaries.entry(name).or_default() += 1);
                    replay.play(&record);
                    rest = behind;
                }
                _ => *self.boundaries.entry(boundaries::broken(rest)).or_default() += 1,
            }
        }
    }

    /// Counts what another run met as well.
    pub fn add(&mut self, other: Tally) {
        fn sum<K: Ord>(counts: &mut BTreeMap<K, u64>, more: BTreeMap<K, u64>) {
            more.into_iter().for_each(|(name, count)| *counts.entry(name).or_default() += count);
        }
        sum(&mut self.traces, other.traces);
        sum(&mut self.kinds, other.kinds);
        sum(&mut self.answers, other.answers);
        sum(&mut self.boundaries, other.boundaries);
        self.all_rust += other.all_rust;
        self.by_rust += other.by_rust;
        self.by_reading += other.by_reading;
    }

    /// Answers, kinds and boundaries that were never met.
    pub fn unmet(&self) -> Vec<String> {
        let answers =
            ANSWERS.iter().filter(|name| !self.answers.contains_key(**name)).map(|name| format!("answer {name}"));
        let kinds = (1..=15).filter(|kind| !self.kinds.contains_key(kind)).map(|kind| format!("kind {kind}"));
        let names = MET.iter().map(|(name, _)| *name).chain(BROKEN);
        let boundaries = names.filter(|name| !self.boundaries.contains_key(name)).map(str::to_owned);
        answers.chain(kinds).chain(boundaries).collect()
    }
}

impl fmt::Display for Tally {
    fn fmt(&self, f: &mut fmt::Formatter<'_>) -> fmt::Result {
        let total: u64 = self.traces.values().sum();
        writeln!(f, "traces: {total} ({})", listed(&self.traces))?;
        writeln!(f, "traces decided by the Rust in every line: {}", self.all_rust)?;
        let records = self.by_rust + self.by_reading;
        writeln!(
            f,
            "records: {records} (lines by the Rust {}, by the second reading alone {})",
            self.by_rust, self.by_reading
        )?;
        writeln!(f, "kinds: {}", listed(&self.kinds))?;
        writeln!(f, "answers: {}", listed(&self.answers))?;
        writeln!(f, "boundaries:")?;
        self.boundaries.iter().try_for_each(|(name, count)| writeln!(f, "  {count:>9}  {name}"))?;
        match self.unmet().as_slice() {
            [] => write!(f, "never met: nothing"),
            unmet => write!(f, "never met: {}", unmet.join("; ")),
        }
    }
}

fn listed<K: fmt::Display>(counts: &BTreeMap<K, u64>) -> String {
    counts.iter().map(|(name, count)| format!("{name}: {count}")).collect::<Vec<_>>().join(", ")
}
