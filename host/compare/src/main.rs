//! Compares a program with the oracle over a range of seeds; `tools/compare` builds it and shows what it finds.
//!
//! compare --out FOLDER [--families inside,outside,short] [--seeds FROM..TO] [--join N] [--complete] [--port | -- PROGRAM WORDS..]

use compare::{Program, Replay, Run};
use generate::{sequences_up_to, Family};
use std::ops::Range;
use std::path::PathBuf;
use std::process::ExitCode;

struct Options {
    run: Run,
    out: PathBuf,
    /// Whether a boundary that was never met fails the run.
    complete: bool,
}

fn main() -> ExitCode {
    let options = match options(std::env::args().skip(1)) {
        Ok(options) => options,
        Err(mistake) => {
            eprintln!("compare: {mistake}");
            return ExitCode::from(2);
        }
    };
    let (tally, outcome) = options.run.go();
    println!("{tally}");
    println!("{}", coverage(&options.run));
    if let Err(difference) = outcome {
        difference.write(&options.out).expect("the folder for differences can be written");
        println!("DIFFERENCE in {}: {}", difference.origin, difference.what);
        return ExitCode::FAILURE;
    }
    if options.complete && !tally.unmet().is_empty() {
        println!("INCOMPLETE: see what was never met");
        return ExitCode::FAILURE;
    }
    println!("no difference");
    ExitCode::SUCCESS
}

/// How far the short traces went.
fn coverage(run: &Run) -> String {
    let whole = (0..8).take_while(|&length| run.seeds.start == 0 && sequences_up_to(length) <= run.seeds.end).last();
    match whole {
        Some(length) if run.families.contains(&Family::Short) => {
            format!("short traces: all of at most {length} calls")
        }
        _ => "short traces: not exhaustive".to_owned(),
    }
}

fn options(arguments: impl Iterator<Item = String>) -> Result<Options, String> {
    let (mut families, mut seeds, mut join, mut complete) = (Family::ALL.to_vec(), 0..2000, 1, false);
    let mut out = None;
    let mut linked = None;
    let mut words = Vec::new();
    let mut arguments = arguments;
    while let Some(argument) = arguments.next() {
        let mut value = || arguments.next().ok_or(format!("{argument} wants a value"));
        match argument.as_str() {
            "--out" => out = Some(PathBuf::from(value()?)),
            "--families" => families = value()?.split(',').map(family).collect::<Result<_, _>>()?,
            "--seeds" => seeds = range(&value()?)?,
            "--join" => join = value()?.parse().map_err(|_| "--join wants a number")?,
            "--complete" => complete = true,
            "--port" => linked = Some(port()?),
            "--" => words = arguments.by_ref().collect(),
            other => return Err(format!("unknown option {other}")),
        }
    }
    let out = out.ok_or("--out is missing")?;
    std::fs::create_dir_all(&out).map_err(|error| format!("{}: {error}", out.display()))?;
    let program = match (linked, words.is_empty()) {
        (Some(_), false) => return Err("--port and a program are two things to compare".to_owned()),
        (Some(replay), true) => Some(Program::Linked(replay)),
        (None, false) => Some(Program::Command { words, scratch: out.join("playing") }),
        (None, true) => None,
    };
    Ok(Options { run: Run { families, seeds, program, join }, out, complete })
}

/// The port, where it is linked.
fn port() -> Result<Replay, String> {
    #[cfg(feature = "port")]
    return Ok(port::replay);
    #[cfg(not(feature = "port"))]
    Err("the port isn't linked: build with --features port".to_owned())
}

fn family(name: &str) -> Result<Family, String> {
    let known = Family::ALL.into_iter().find(|family| family.name() == name);
    known.ok_or(format!("unknown family {name}"))
}

fn range(text: &str) -> Result<Range<u64>, String> {
    let ends = text.split_once("..").and_then(|(from, to)| Some(from.parse().ok()?..to.parse().ok()?));
    ends.filter(|range: &Range<u64>| !range.is_empty()).ok_or(format!("{text} is no range of seeds, as 0..2000"))
}
