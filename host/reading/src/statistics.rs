//! The statistics record: 14 numbers that stay at 2^64-1 once they are there.

use records::Answer;

/// The record, with its fields in the Rust's order.
#[derive(Debug, Clone, Default)]
pub struct Statistics {
    pub requests_sent: u64,
    pub requests_received: u64,
    pub responses_sent: u64,
    pub responses_received: u64,
    pub indications_sent: u64,
    pub indications_received: u64,
    pub timed_out: u64,
    pub cancelled: u64,
    pub bytes_sent: u64,
    pub bytes_received: u64,
    pub rtt_sum: u64,
    pub rtt_min: Option<u64>,
    pub rtt_max: Option<u64>,
    pub rtt_count: u64,
}

/// Raises a counter.
pub fn raise(counter: &mut u64, by: u64) {
    *counter = counter.saturating_add(by);
}

impl Statistics {
    /// Counts one round trip.
    pub fn sample(&mut self, rtt: u64) {
        raise(&mut self.rtt_sum, rtt);
        raise(&mut self.rtt_count, 1);
        self.rtt_min = Some(self.rtt_min.map_or(rtt, |least| least.min(rtt)));
        self.rtt_max = Some(self.rtt_max.map_or(rtt, |most| most.max(rtt)));
    }

    /// The answer to kind 13.
    pub fn answer(&self) -> Answer {
        Answer::Stats([
            Some(self.requests_sent),
            Some(self.requests_received),
            Some(self.responses_sent),
            Some(self.responses_received),
            Some(self.indications_sent),
            Some(self.indications_received),
            Some(self.timed_out),
            Some(self.cancelled),
            Some(self.bytes_sent),
            Some(self.bytes_received),
            Some(self.rtt_sum),
            self.rtt_min,
            self.rtt_max,
            Some(self.rtt_count),
        ])
    }
}
