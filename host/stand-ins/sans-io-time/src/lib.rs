//! Stand-in for sans-io-time: an instant is a whole number of nanoseconds since the clock's zero.

#![no_std]

use core::ops::{Add, Sub};
use core::time::Duration;

/// A moment; wide enough that no clock and wait of the domain can overflow it.
#[derive(Debug, Clone, Copy, PartialEq, Eq, PartialOrd, Ord)]
pub struct Instant(u128);

impl Instant {
    /// The moment `nanoseconds` after the clock's zero.
    pub fn from_nanos(nanoseconds: u64) -> Self {
        Instant(nanoseconds.into())
    }

    /// The nanoseconds since the clock's zero.
    pub fn as_nanos(self) -> u128 {
        self.0
    }
}

impl Add<Duration> for Instant {
    type Output = Instant;

    fn add(self, wait: Duration) -> Instant {
        Instant(self.0 + wait.as_nanos())
    }
}

impl Sub<Instant> for Instant {
    type Output = Duration;

    /// Panics when `earlier` is the later of the two, or when the difference passes 64 bits.
    fn sub(self, earlier: Instant) -> Duration {
        let passed = self.0.checked_sub(earlier.0).expect("a clock ran backwards");
        Duration::from_nanos(passed.try_into().expect("a difference of clocks above 2^64"))
    }
}
