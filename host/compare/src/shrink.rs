//! Makes a trace that shows a difference as short and as plain as it gets.

use crate::plain;
use records::{message, Head, Read, Record};

/// Numbers that hang together can creep down by one a round: it isn't worth more rounds than this.
const ROUNDS: usize = 8;

/// A shorter and plainer trace that still shows what `shows` looks for.
pub fn shrink(trace: &[u8], shows: &dyn Fn(&[u8]) -> bool) -> Vec<u8> {
    let mut parts = split(trace);
    for _ in 0..ROUNDS {
        let before = parts.clone();
        parts = without_parts(parts, shows);
        parts = with_bare_messages(parts, shows);
        parts = plain::with_plain_names(parts, shows);
        parts = plain::with_smaller_numbers(parts, shows);
        if parts == before {
            break;
        }
    }
    parts.concat()
}

/// The bytes of each record; what is no record is one last part.
fn split(trace: &[u8]) -> Vec<Vec<u8>> {
    let mut parts = Vec::new();
    let mut rest = trace;
    while let Read::Record(_, behind) = Record::read(rest) {
        parts.push(rest[..rest.len() - behind.len()].to_vec());
        rest = behind;
    }
    if !rest.is_empty() {
        parts.push(rest.to_vec());
    }
    parts
}

/// Leaves out runs of parts, long ones first.
fn without_parts(mut parts: Vec<Vec<u8>>, shows: &dyn Fn(&[u8]) -> bool) -> Vec<Vec<u8>> {
    let mut run = parts.len().next_power_of_two();
    while run > 0 {
        let mut at = 0;
        while at < parts.len() {
            let end = (at + run).min(parts.len());
            let fewer = [&parts[..at], &parts[end..]].concat();
            if shows(&fewer.concat()) {
                parts = fewer;
            } else {
                at = end;
            }
        }
        run /= 2;
    }
    parts
}

/// Takes the attributes and uncommon methods out of messages.
fn with_bare_messages(mut parts: Vec<Vec<u8>>, shows: &dyn Fn(&[u8]) -> bool) -> Vec<Vec<u8>> {
    for at in 0..parts.len() {
        if let Some(bare) = bare(&parts[at]) {
            let kept = std::mem::replace(&mut parts[at], bare);
            if !shows(&parts.concat()) {
                parts[at] = kept;
            }
        }
    }
    parts
}

/// The record with its message's head alone.
fn bare(part: &[u8]) -> Option<Vec<u8>> {
    let Read::Record(mut record, _) = Record::read(part) else { return None };
    match &mut record {
        Record::Request { message: bytes, .. }
        | Record::Send { message: bytes, .. }
        | Record::Received { message: bytes, .. } => {
            let head = Head::read(bytes)?;
            let bare = message(head.class, 1, &head.id, &[]);
            if bare == *bytes {
                return None;
            }
            *bytes = bare;
        }
        _ => return None,
    }
    Some(record.encode())
}

#[cfg(test)]
mod tests {
    use super::*;
    use records::{Address, Class};

    #[test]
    fn what_is_left_is_what_shows() {
        let trace = generate::Family::Inside.trace(7);
        let polls = |bytes: &[u8]| split(bytes).iter().filter(|part| part[2] == 7).count();
        assert!(polls(&trace) >= 2);
        let least = shrink(&trace, &|bytes| polls(bytes) >= 2);
        assert_eq!(least, [Record::Poll(0).encode(), Record::Poll(0).encode()].concat());
    }

    #[test]
    fn names_become_plain_and_numbers_as_small_as_they_may() {
        let (to, id) = (Address::V6 { address: [7; 16], port: 9, flow: 8, scope: 7 }, [0xEE; 12]);
        let request = Record::Request { clock: 1 << 59, to, message: message(Class::Request, 1, &id, &[]) };
        let trace = [request.encode(), Record::Cancel(id).encode()].concat();
        let late = |bytes: &[u8]| {
            split(bytes).len() == 2
                && matches!(Record::read(bytes), Read::Record(first, _) if first.clock() > Some(777))
        };
        let plain = [0, 0, 0, 0, 0, 0, 0, 0, 0, 0, 0, 1];
        let to = Address::V4 { address: [192, 0, 2, 1], port: 3478 };
        let request = Record::Request { clock: 778, to, message: message(Class::Request, 1, &plain, &[]) };
        assert_eq!(shrink(&trace, &late), [request.encode(), Record::Cancel(plain).encode()].concat());
    }

    #[test]
    fn bytes_that_are_no_record_stay_in_one_part() {
        let trace = [Record::Reset.encode(), vec![1, 2, 3]].concat();
        assert_eq!(split(&trace), [Record::Reset.encode(), vec![1, 2, 3]]);
    }
}
