//! One request and its waits (document 01, "Waits and one request").

use records::{Address, Id, Rto, NO_MAXIMUM};

/// The waits between sends, written out, and the wait behind the last one.
#[derive(Debug, Clone, PartialEq, Eq)]
pub struct Waits {
    pub between: Vec<u128>,
    pub last: u128,
}

impl Waits {
    /// What these settings mean by UDP or TCP.
    pub fn new(tcp: bool, rto: &Rto) -> Waits {
        let count = rto.transmissions.max(1) - 1;
        let max = u128::from(rto.max);
        let doubled = |index: u32| u128::from(rto.initial) * 2u128.pow(index);
        let between: Vec<u128> = (0..count).map(|index| doubled(index).min(max)).collect();
        let last = u128::from(rto.final_wait);
        if tcp {
            let sum: u128 = between.iter().sum();
            return Waits { between: Vec::new(), last: (last + sum).min(NO_MAXIMUM.into()) };
        }
        Waits { between, last }
    }
}

/// An outstanding request.
///
/// It always has a last send: a request enters the table together with its first transmission, and a
/// trace can't make one otherwise.
#[derive(Debug, Clone)]
pub struct Request {
    pub id: Id,
    pub to: Address,
    pub message: Vec<u8>,
    pub waits: Waits,
    /// How many due steps have passed.
    pub steps: usize,
    pub last_send: u64,
    /// Retransmissions were cancelled.
    pub silent: bool,
    /// The request was cancelled outright.
    pub cancelled: bool,
}

/// How a request stands at a poll.
#[derive(Debug, PartialEq, Eq)]
pub enum Standing {
    Cancelled,
    TimedOut,
    /// Nothing to report before this moment.
    Until(u128),
}

impl Request {
    /// When its next send is due; none once all steps have passed.
    pub fn due(&self) -> Option<u128> {
        self.waits.between.get(self.steps).map(|wait| u128::from(self.last_send) + wait)
    }

    /// When it ends; none while steps are left.
    pub fn end(&self) -> Option<u128> {
        match self.due() {
            Some(_) => None,
            None => Some(u128::from(self.last_send) + self.waits.last),
        }
    }

    /// Passes a due step; true when it sends.
    pub fn step(&mut self, now: u64) -> bool {
        let due = self.due().is_some_and(|due| due <= now.into());
        if self.cancelled || !due {
            return false;
        }
        self.steps += 1;
        self.last_send = now;
        !self.silent
    }

    /// How it stands at a poll.
    pub fn standing(&self, now: u64) -> Standing {
        let now = u128::from(now);
        if self.cancelled {
            return Standing::Cancelled;
        }
        match (self.due(), self.end()) {
            (Some(due), _) => Standing::Until(due.max(now)),
            (None, Some(end)) if end <= now => Standing::TimedOut,
            (None, Some(_)) if self.silent => Standing::Cancelled,
            (None, Some(end)) => Standing::Until(end),
            (None, None) => unreachable!("a request without a due step has an end"),
        }
    }
}

#[cfg(test)]
mod tests {
    use super::*;

    const MILLISECOND: u64 = 1_000_000;

    /// The waits of these settings, in milliseconds.
    fn waits(tcp: bool, initial: u64, max: u64, transmissions: u32, final_wait: u64) -> (Vec<u128>, u128) {
        let rto = Rto {
            initial: initial * MILLISECOND,
            max: max.saturating_mul(MILLISECOND).min(NO_MAXIMUM),
            transmissions,
            final_wait: final_wait * MILLISECOND,
        };
        let found = Waits::new(tcp, &rto);
        let shown = |wait: u128| wait / u128::from(MILLISECOND);
        (found.between.into_iter().map(shown).collect(), shown(found.last))
    }

    #[test]
    fn the_documents_specimens() {
        let default = vec![500, 1000, 2000, 4000, 8000, 16_000];
        assert_eq!(waits(false, 500, NO_MAXIMUM, 7, 8000), (default, 8000), "S1");
        assert_eq!(waits(false, 500, NO_MAXIMUM, 0, 8000), (vec![], 8000), "S2");
        assert_eq!(waits(false, 500, NO_MAXIMUM, 1, 8000), (vec![], 8000), "S2");
        assert_eq!(waits(false, 500, 3000, 6, 8000).0, [500, 1000, 2000, 3000, 3000], "S3");
        let long = Rto { initial: 1, max: NO_MAXIMUM, transmissions: 33, final_wait: 0 };
        assert_eq!(Waits::new(false, &long).between.last(), Some(&2_147_483_648), "S4");
        assert_eq!(waits(true, 500, NO_MAXIMUM, 7, 8000), (vec![], 39_500), "S5");
    }
}
