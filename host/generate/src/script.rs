//! A trace in the making: records are played on the second reading as they are written.

use crate::material::{addresses, identifiers};
use crate::random::Random;
use reading::{Agent, Replay};
use records::{Address, Answer, Id, Record, LAST_CLOCK};

/// The records so far, the state they lead to, and what the next ones are drawn from.
pub struct Script {
    pub random: Random,
    pub ids: Vec<Id>,
    pub addresses: Vec<Address>,
    bytes: Vec<u8>,
    replay: Replay<'static>,
}

impl Script {
    /// Nothing written yet.
    pub fn new(seed: u64, ids: usize, address_count: usize) -> Script {
        let mut random = Random::new(seed);
        Script {
            ids: identifiers(&mut random, ids),
            addresses: addresses(&mut random, address_count),
            random,
            bytes: Vec::new(),
            replay: Replay::new(&[]),
        }
    }

    /// Writes a record and plays it.
    pub fn play(&mut self, record: Record) -> Answer {
        self.bytes.extend(record.encode());
        self.replay.play(&record)
    }

    /// Writes bytes that are no record.
    pub fn write(&mut self, bytes: &[u8]) {
        self.bytes.extend(bytes);
    }

    /// The trace.
    pub fn finish(self) -> Vec<u8> {
        self.bytes
    }

    /// The second reading's agent; settings must have been played.
    pub fn agent(&self) -> &Agent {
        self.replay.agent().expect("settings come first")
    }

    /// An identifier, outstanding or not.
    pub fn id(&mut self) -> Id {
        self.random.pick(&self.ids)
    }

    /// An outstanding identifier, if there is one and chance wants it.
    pub fn outstanding(&mut self, percent: u64) -> Id {
        let count = self.agent().requests.len();
        if count > 0 && self.random.chance(percent) {
            let at = self.random.index(count);
            return self.agent().requests[at].id;
        }
        self.id()
    }

    /// An address.
    pub fn address(&mut self) -> Address {
        self.random.pick(&self.addresses)
    }

    /// A clock that isn't refused: now, just after, or around a due moment, an end or the hour.
    pub fn clock(&mut self) -> u64 {
        let mark = self.agent().mark;
        let step = 10u64.pow(self.random.below(11) as u32);
        let wished = match self.random.below(20) {
            0..=3 => mark,
            4 => mark + 1,
            5..=15 => self.near_a_moment().unwrap_or(mark + 1),
            16..=17 => mark + self.random.below(step),
            18 => mark + 3_600_000_000_000 - 1 + self.random.below(3),
            _ if self.random.chance(10) => LAST_CLOCK - self.random.below(2),
            _ => mark,
        };
        wished.clamp(mark, LAST_CLOCK)
    }

    /// One before, on or one after a request's due moment or end, if that is within the clock's range.
    fn near_a_moment(&mut self) -> Option<u64> {
        let moments: Vec<u128> = self
            .agent()
            .requests
            .iter()
            .filter_map(|request| request.due().or(request.end()))
            .filter(|&moment| moment < LAST_CLOCK.into())
            .collect();
        if moments.is_empty() {
            return None;
        }
        let moment = u64::try_from(self.random.pick(&moments)).expect("a moment below 2^60");
        Some(match self.random.below(5) {
            0 => moment.saturating_sub(1),
            1 => moment + 1,
            _ => moment,
        })
    }
}
