//! Writes the trace of a family and seed to standard output: `generate FAMILY SEED`.

use generate::Family;
use std::io::Write;
use std::process::ExitCode;

fn main() -> ExitCode {
    let arguments: Vec<String> = std::env::args().skip(1).collect();
    let [name, seed] = arguments.as_slice() else {
        eprintln!("generate FAMILY SEED");
        return ExitCode::from(2);
    };
    let family = Family::ALL.into_iter().find(|family| family.name() == name);
    let (Some(family), Ok(seed)) = (family, seed.parse()) else {
        eprintln!("generate: no family {name}, or no seed {seed}");
        return ExitCode::from(2);
    };
    match std::io::stdout().write_all(&family.trace(seed)) {
        Ok(()) => ExitCode::SUCCESS,
        Err(_) => ExitCode::FAILURE,
    }
}
