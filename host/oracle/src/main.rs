//! Plays a trace from standard input, or from the file that is named, and prints the oracle's lines.
//!
//! `oracle [--judges] [FILE]`. With --judges each line begins with who decided it: `rust`, or `ours` for
//! the second reading. Exits 1, with the place on standard error, where the two part or the Rust panics.

use oracle::{judge, Judge};
use std::io::Write;
use std::process::ExitCode;

fn main() -> std::io::Result<ExitCode> {
    let mut arguments = std::env::args_os().skip(1).peekable();
    let judges = arguments.next_if(|word| word == "--judges").is_some();
    let judged = match judge(&reading::read_trace(arguments.next())?) {
        Ok(judged) => judged,
        Err(disagreement) => {
            eprintln!("{disagreement}");
            return Ok(ExitCode::FAILURE);
        }
    };
    let plain = records::lines(judged.iter().map(|line| &line.answer));
    let marked: String =
        plain.split_inclusive('\n').zip(&judged).map(|(line, judged)| mark(line, judged.judge)).collect();
    std::io::stdout().write_all(if judges { marked.as_bytes() } else { plain.as_bytes() })?;
    Ok(ExitCode::SUCCESS)
}

fn mark(line: &str, judge: Judge) -> String {
    match judge {
        Judge::Rust => format!("rust {line}"),
        Judge::Reading => format!("ours {line}"),
    }
}
