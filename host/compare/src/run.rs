//! A run: traces of some families over a range of seeds, judged, counted and compared.

use crate::program::TIME_LIMIT;
use crate::shrink::shrink;
use crate::{Difference, Program, Tally};
use generate::Family;
use oracle::{judge, Judge, Judged};
use records::lines;
use std::num::NonZeroUsize;
use std::ops::Range;
use std::sync::Mutex;
use std::thread;
use std::time::Instant;

/// What to run.
pub struct Run {
    pub families: Vec<Family>,
    pub seeds: Range<u64>,
    /// None to compare the oracle and the second reading alone.
    pub program: Option<Program>,
    /// How many traces the program gets as one. Kind 1 makes a fresh agent anywhere, so traces can be
    /// played one behind another, unless one ends the replay by a broken record.
    pub join: usize,
}

/// A trace with what its lines should be.
struct Case {
    origin: String,
    trace: Vec<u8>,
    judged: Vec<Judged>,
}

/// A trace's place in a run: the number of its family, and its seed.
type Place = (usize, u64);

/// What one thread counted, and the difference that it ended at.
type Part = (Tally, Option<(Place, Difference)>);

/// The least place at which any thread has found a difference.
#[derive(Default)]
struct Found(Mutex<Option<Place>>);

impl Found {
    fn note(&self, place: Place) {
        let mut least = self.0.lock().expect("no thread panics here");
        *least = least.into_iter().chain([place]).min();
    }

    fn before(&self, place: Place) -> bool {
        self.0.lock().expect("no thread panics here").is_some_and(|least| least < place)
    }
}

impl Run {
    /// Plays all traces; stops at the first difference, made as short as it gets. It is the one at the least place,
    /// however many threads there are.
    pub fn go(&self) -> (Tally, Result<(), Difference>) {
        let (threads, found) = (self.threads(), Found::default());
        let parts: Vec<Part> = thread::scope(|scope| {
            let start = |first| {
                let found = &found;
                scope.spawn(move || self.play_part(first, threads, found))
            };
            let started: Vec<_> = (0..threads).map(start).collect();
            started.into_iter().map(|thread| thread.join().expect("a difference is no panic")).collect()
        });
        let mut tally = Tally::default();
        let mut least = None;
        for (counted, difference) in parts {
            tally.add(counted);
            least = least.into_iter().chain(difference).min_by_key(|(place, _)| *place);
        }
        (tally, least.map_or(Ok(()), |(_, difference)| Err(difference)))
    }

    /// One for each processor; a command takes its traces one after the other.
    fn threads(&self) -> usize {
        match self.program {
            Some(Program::Command { .. }) => 1,
            _ => thread::available_parallelism().map_or(1, NonZeroUsize::get),
        }
    }

    /// Plays every nth seed from the first on; ends at a difference, or behind one that another thread found.
    fn play_part(&self, first: usize, n: usize, found: &Found) -> Part {
        let (mut tally, mut waiting) = (Tally::default(), Vec::new());
        for (number, &family) in self.families.iter().enumerate() {
            for seed in self.seeds.clone().skip(first).step_by(n) {
                let place = (number, seed);
                if found.before(place) {
                    return (tally, None);
                }
                if let Err(difference) = self.play(family, seed, &mut waiting, &mut tally) {
                    found.note(place);
                    return (tally, Some((place, difference)));
                }
            }
        }
        let end = (self.families.len(), 0);
        (tally, self.compare(&waiting).err().map(|difference| (end, difference)))
    }

    /// Judges a trace and counts it; compares it, once enough are waiting to be played as one.
    fn play(&self, family: Family, seed: u64, waiting: &mut Vec<Case>, tally: &mut Tally) -> Result<(), Difference> {
        let case = judged_case(family, seed)?;
        tally.count(family, &case.trace, &case.judged);
        if ends_replay(&case) {
            return self.compare(std::slice::from_ref(&case));
        }
        waiting.push(case);
        if waiting.len() >= self.join {
            self.compare(waiting)?;
            waiting.clear();
        }
        Ok(())
    }

    /// Compares the program's lines on these traces, played as one.
    fn compare(&self, cases: &[Case]) -> Result<(), Difference> {
        let Some(program) = &self.program else { return Ok(()) };
        let joined: Vec<u8> = cases.iter().flat_map(|case| case.trace.clone()).collect();
        let expected = lines(cases.iter().flat_map(|case| case.judged.iter().map(|line| &line.answer)));
        let start = Instant::now();
        match program.lines(&joined) {
            Ok(found) if found == expected => Ok(()),
            // What made it run out of its time isn't shortened: each try would take as long.
            Err(what) if start.elapsed() >= TIME_LIMIT => {
                Err(Difference { origin: origin(cases), what, trace: joined, expected, found: String::new() })
            }
            _ => Err(shortened(program, cases, &joined)),
        }
    }
}

/// The difference in one of these traces, or in all as one, made as short as it gets.
fn shortened(program: &Program, cases: &[Case], joined: &[u8]) -> Difference {
    let shows = |trace: &[u8]| fault(program, trace).is_some();
    let alone = cases.iter().find(|case| shows(&case.trace));
    let trace = shrink(alone.map_or(joined, |case| &case.trace), &shows);
    Difference {
        origin: origin(alone.map_or(cases, std::slice::from_ref)),
        what: fault(program, &trace).unwrap_or_else(|| "the program's lines change from run to run".to_owned()),
        expected: judge(&trace).map_or_else(|parted| parted.to_string(), |judged| text(&judged)),
        found: program.lines(&trace).unwrap_or_else(|fault| fault),
        trace,
    }
}

/// Where these traces come from.
fn origin(cases: &[Case]) -> String {
    match cases {
        [] => "no trace".to_owned(),
        [only] => only.origin.clone(),
        [first, .., last] => format!("{} to {}, played as one", first.origin, last.origin),
    }
}

fn text(judged: &[Judged]) -> String {
    lines(judged.iter().map(|line| &line.answer))
}

/// Whether nothing can be played behind this trace.
fn ends_replay(case: &Case) -> bool {
    let mut replay = reading::Replay::new(&case.trace);
    let last = replay.by_ref().last();
    replay.agent().is_none() || last.is_none_or(|turn| turn.record.is_none())
}

/// What the program does wrong on a trace, if the oracle can judge it at all.
fn fault(program: &Program, trace: &[u8]) -> Option<String> {
    let expected = text(&judge(trace).ok()?);
    match program.lines(trace) {
        Err(fault) => Some(fault),
        Ok(found) if found == expected => None,
        Ok(found) => Some(format!("line {} differs", first_difference(&expected, &found))),
    }
}

fn first_difference(expected: &str, found: &str) -> usize {
    1 + expected.split('\n').zip(found.split('\n')).take_while(|(one, other)| one == other).count()
}

/// The trace of this seed with its judged lines; the oracle's two sides must agree on it.
fn judged_case(family: Family, seed: u64) -> Result<Case, Difference> {
    let origin = format!("{} {seed}", family.name());
    let trace = family.trace(seed);
    match judge(&trace) {
        Err(_) => {
            let least = shrink(&trace, &|trace| judge(trace).is_err());
            let parted = judge(&least).expect_err("shrinking keeps the disagreement");
            Err(Difference {
                origin,
                what: parted.to_string(),
                expected: lines(&reading::replay(&least)),
                found: parted.to_string(),
                trace: least,
            })
        }
        Ok(judged) if family != Family::Outside && judged.iter().any(|line| line.judge == Judge::Reading) => {
            let expected = text(&judged);
            let what = "the generator left the domain".to_owned();
            Err(Difference { origin, what, trace, found: String::new(), expected })
        }
        Ok(judged) => Ok(Case { origin, trace, judged }),
    }
}
