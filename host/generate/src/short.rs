//! Every sequence of a few calls on one request, in a handful of settings: the shorter sequences first.

use records::{message, Address, Class, Id, Record, Rto, NO_MAXIMUM};

const HERE: Address = Address::V4 { address: [192, 0, 2, 1], port: 3478 };
const THERE: Address = Address::V4 { address: [192, 0, 2, 2], port: 3478 };
const FIRST: Id = [0, 0, 0, 0, 0, 0, 0, 0, 0, 0, 0, 1];
const SECOND: Id = [0, 0, 0, 0, 0, 0, 0, 0, 0, 0, 0, 2];

/// Transport and settings: steps and an end, a cap, no steps, zero waits, an end at once, TCP.
const SETTINGS: [(bool, Rto); 6] = [
    (false, Rto { initial: 1, max: NO_MAXIMUM, transmissions: 3, final_wait: 2 }),
    (false, Rto { initial: 2, max: 1, transmissions: 2, final_wait: 1 }),
    (false, Rto { initial: 1, max: 2, transmissions: 1, final_wait: 2 }),
    (false, Rto { initial: 0, max: 0, transmissions: 3, final_wait: 1 }),
    (false, Rto { initial: 1, max: NO_MAXIMUM, transmissions: 2, final_wait: 0 }),
    (true, Rto { initial: 1, max: NO_MAXIMUM, transmissions: 2, final_wait: 1 }),
];

const LETTERS: u64 = 14;

/// How many seeds it takes for all sequences of at most this many calls, in all settings.
pub fn sequences_up_to(length: u32) -> u64 {
    (0..=length).map(|length| LETTERS.pow(length)).sum::<u64>() * SETTINGS.len() as u64
}

/// The trace of this seed.
pub fn trace(seed: u64) -> Vec<u8> {
    let (tcp, rto) = SETTINGS[(seed % SETTINGS.len() as u64) as usize];
    let mut bytes = Record::Settings { tcp, statistics: true, rto }.encode();
    bytes.extend(request(0, SECOND));
    let mut clock = 0;
    for letter in letters(seed / SETTINGS.len() as u64) {
        bytes.extend(call(letter, &mut clock));
    }
    for ending in [Record::Poll(clock), Record::PollTransmit(clock), Record::Poll(clock), Record::Statistics] {
        bytes.extend(ending.encode());
    }
    bytes
}

/// The sequence with this number: all of no letter, then all of one, of two, ..
fn letters(number: u64) -> Vec<u64> {
    let mut left = number;
    let mut length = 0;
    while left >= LETTERS.pow(length) {
        left -= LETTERS.pow(length);
        length += 1;
    }
    (0..length).map(|place| left / LETTERS.pow(place) % LETTERS).collect()
}

fn call(letter: u64, clock: &mut u64) -> Vec<u8> {
    let mut later = |by: u64| {
        *clock += by;
        *clock
    };
    match letter {
        0..=2 => Record::Poll(later(letter)).encode(),
        3..=5 => Record::PollTransmit(later(letter - 3)).encode(),
        6 => Record::CancelRetransmissions(SECOND).encode(),
        7 => Record::Cancel(SECOND).encode(),
        8 => received(Some(later(0)), Class::Success),
        9 => received(None, Class::Error),
        10 => configure(1, 1),
        11 => configure(5, 2),
        12 => request(later(0), FIRST),
        _ => request(later(1), SECOND),
    }
}

fn request(clock: u64, id: Id) -> Vec<u8> {
    Record::Request { clock, to: HERE, message: message(Class::Request, 1, &id, &[]) }.encode()
}

fn received(clock: Option<u64>, class: Class) -> Vec<u8> {
    Record::Received { clock, from: THERE, message: message(class, 1, &SECOND, &[]) }.encode()
}

fn configure(transmissions: u32, final_wait: u64) -> Vec<u8> {
    let rto = Rto { initial: 1, max: NO_MAXIMUM, transmissions, final_wait };
    Record::Configure { id: SECOND, rto }.encode()
}

#[cfg(test)]
mod tests {
    use super::*;
    use std::collections::BTreeSet;

    #[test]
    fn sequences_are_all_different_and_complete() {
        let all: BTreeSet<Vec<u64>> = (0..sequences_up_to(3) / SETTINGS.len() as u64).map(letters).collect();
        assert_eq!(all.len() as u64, 1 + 14 + 14 * 14 + 14 * 14 * 14);
        assert!(all.iter().all(|letters| letters.len() <= 3));
    }
}
