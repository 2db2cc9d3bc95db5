//! What is compared: a command line, or a replay in this process.

use std::fs::{self, File};
use std::path::{Path, PathBuf};
use std::process::{Child, Command, ExitStatus};
use std::thread::sleep;
use std::time::{Duration, Instant};

/// The call that a static library offers a Rust test host: trace bytes in, lines into a lent buffer,
/// their byte count back.
pub type Replay = fn(trace: &[u8], out: &mut [u8]) -> usize;

/// How long a program may take over what it is given at one start.
pub const TIME_LIMIT: Duration = Duration::from_secs(20);

/// How often it is looked after.
const LOOK: Duration = Duration::from_micros(100);

/// Something that plays traces.
pub enum Program {
    /// Words of a command line. The trace is its standard input, and stands in `scratch`, whose name
    /// takes the place of a word `{}`.
    Command { words: Vec<String>, scratch: PathBuf },
    /// A function in this process.
    Linked(Replay),
}

impl Program {
    /// The program's lines for this trace, or why there are none.
    pub fn lines(&self, trace: &[u8]) -> Result<String, String> {
        match self {
            Program::Command { words, scratch } => command_lines(words, scratch, trace),
            Program::Linked(replay) => linked_lines(*replay, trace),
        }
    }
}

/// Input and output are files, so that neither side waits for the other.
fn command_lines(words: &[String], scratch: &Path, trace: &[u8]) -> Result<String, String> {
    let failed = |error: std::io::Error| format!("{words:?}: {error}");
    fs::write(scratch, trace).map_err(failed)?;
    let answers = scratch.with_extension("lines");
    let file = scratch.display().to_string();
    let arguments = words[1..].iter().map(|word| if word == "{}" { &file } else { word });
    let child = Command::new(&words[0])
        .args(arguments)
        .stdin(File::open(scratch).map_err(failed)?)
        .stdout(File::create(&answers).map_err(failed)?)
        .spawn()
        .map_err(failed)?;
    match ended(child).map_err(failed)? {
        Some(status) if status.success() => fs::read_to_string(&answers).map_err(failed),
        Some(status) => Err(format!("{words:?}: {status}")),
        None => Err(format!("{words:?}: not done after {} s", TIME_LIMIT.as_secs())),
    }
}

/// How a program ended; none where it had to be stopped.
fn ended(mut child: Child) -> std::io::Result<Option<ExitStatus>> {
    let start = Instant::now();
    while start.elapsed() < TIME_LIMIT {
        if let Some(status) = child.try_wait()? {
            return Ok(Some(status));
        }
        sleep(LOOK);
    }
    child.kill()?;
    child.wait().map(|_| None)
}

fn linked_lines(replay: Replay, trace: &[u8]) -> Result<String, String> {
    let mut out = vec![0xAA; records::room_for(trace)];
    let length = replay(trace, &mut out);
    if out.len() < length || out[length..].iter().any(|&byte| byte != 0) {
        return Err(format!("{length} bytes of {}, or no zeros behind them", out.len()));
    }
    out.truncate(length);
    String::from_utf8(out).map_err(|error| error.to_string())
}

#[cfg(test)]
mod tests {
    use super::*;

    #[test]
    fn a_linked_replay_says_what_the_second_reading_says() {
        let program = Program::Linked(reading::replay_into);
        for seed in 0..300 {
            let trace = generate::Family::Outside.trace(seed);
            assert_eq!(program.lines(&trace).unwrap(), records::lines(&reading::replay(&trace)));
        }
    }

    #[test]
    fn lines_that_do_not_fit_whole_are_left_out() {
        let trace = generate::Family::Inside.trace(0);
        let whole = records::lines(&reading::replay(&trace));
        for room in 0..whole.len() + 2 {
            let mut out = vec![0xAA; room];
            let length = reading::replay_into(&trace, &mut out);
            let (lines, rest) = out.split_at(length);
            assert!(whole.as_bytes().starts_with(lines) && rest.iter().all(|&byte| byte == 0));
            let next = whole[length..].split_inclusive('\n').next();
            assert!(length == 0 || lines.ends_with(b"\n"));
            assert!(next.is_none_or(|line| length + line.len() > room), "a line that fits was left out");
        }
    }
}
