//! Plays the trace on standard input through the port's static library, and prints its lines.

use std::io::{Read, Write};

fn main() -> std::io::Result<()> {
    let mut trace = Vec::new();
    std::io::stdin().read_to_end(&mut trace)?;
    std::io::stdout().write_all(&port::lines(&trace))
}
