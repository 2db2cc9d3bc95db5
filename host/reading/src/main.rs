//! Plays a trace from standard input, or from the file that is named, and prints the second reading's lines.

use std::io::Write;

fn main() -> std::io::Result<()> {
    let trace = reading::read_trace(std::env::args_os().nth(1))?;
    std::io::stdout().write_all(records::lines(&reading::replay(&trace)).as_bytes())
}
