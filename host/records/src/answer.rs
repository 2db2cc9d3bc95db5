//! Answers and the lines they are printed as.

use crate::Id;
use std::fmt;

/// What a record is answered with.
#[derive(Debug, Clone, PartialEq, Eq)]
pub enum Answer {
    /// A record that broke the layout; nothing follows it.
    Bad,
    Refused(u8),
    Ok,
    Yes,
    No,
    Nothing,
    Send {
        id: Id,
        length: usize,
    },
    Wait(u64),
    TimedOut(Id),
    Cancelled(Id),
    Sha1,
    Sha256,
    /// The 14 fields in the Rust's order.
    Stats([Option<u64>; 14]),
}

impl Answer {
    /// The word that the line shows for it, with the number of a refusal: what answers are counted by.
    pub fn kind(&self) -> String {
        let line = self.to_string();
        let words = if matches!(self, Answer::Refused(_)) { 2 } else { 1 };
        line.split(' ').take(words).collect::<Vec<_>>().join(" ")
    }
}

impl fmt::Display for Answer {
    fn fmt(&self, f: &mut fmt::Formatter<'_>) -> fmt::Result {
        match self {
            Answer::Bad => write!(f, "bad"),
            Answer::Refused(number) => write!(f, "refused {number}"),
            Answer::Ok => write!(f, "ok"),
            Answer::Yes => write!(f, "yes"),
            Answer::No => write!(f, "no"),
            Answer::Nothing => write!(f, "none"),
            Answer::Send { id, length } => write!(f, "send {} {length}", Hex(id)),
            Answer::Wait(clock) => write!(f, "wait {clock}"),
            Answer::TimedOut(id) => write!(f, "timeout {}", Hex(id)),
            Answer::Cancelled(id) => write!(f, "cancelled {}", Hex(id)),
            Answer::Sha1 => write!(f, "sha1"),
            Answer::Sha256 => write!(f, "sha256"),
            Answer::Stats(fields) => {
                write!(f, "stats")?;
                fields.iter().try_for_each(|field| match field {
                    Some(number) => write!(f, " {number}"),
                    None => write!(f, " -"),
                })
            }
        }
    }
}

/// An identifier as lowercase hex digits.
struct Hex<'a>(&'a Id);

impl fmt::Display for Hex<'_> {
    fn fmt(&self, f: &mut fmt::Formatter<'_>) -> fmt::Result {
        let digit = |half: u8| b"0123456789abcdef"[usize::from(half)];
        let mut digits = [0; 24];
        for (pair, byte) in digits.chunks_exact_mut(2).zip(self.0) {
            pair.copy_from_slice(&[digit(byte >> 4), digit(byte & 15)]);
        }
        f.write_str(std::str::from_utf8(&digits).expect("digits are text"))
    }
}

/// Bytes enough for all lines of a trace: no record is shorter than its frame of 5 bytes, and no line longer than
/// a number of 20 digits, `stats`, 14 such numbers and a line feed.
pub fn room_for(trace: &[u8]) -> usize {
    (trace.len() / 5 + 1) * 321
}

/// The lines for these answers, numbered from 1.
pub fn lines<'a>(answers: impl IntoIterator<Item = &'a Answer>) -> String {
    let numbered = answers.into_iter().enumerate();
    numbered.map(|(index, answer)| format!("{} {answer}\n", index + 1)).collect()
}
