//! The refusal table of document 01: each number a test of its own, the lowest that applies is answered.
//!
//! Numbers 1 and 12 aren't here: no trace can hand over a broken state, or ask for the outstanding count.

use crate::Agent;
use records::{Class, Head, Id, Record, Rto, LAST_CLOCK, NO_MAXIMUM};

/// How many requests the table holds.
pub const ROWS: usize = 32;

/// How many peers the replay's list holds.
const PEERS: usize = 64;

/// The longest request.
const REQUEST_LIMIT: usize = 1024;

/// Number 2 for these settings.
pub fn settings_refused(rto: &Rto) -> bool {
    rto.transmissions > 33 || [rto.initial, rto.max, rto.final_wait].iter().any(|&duration| duration > NO_MAXIMUM)
}

/// Whether a number applies to a call.
type Test = fn(&Agent, &Record) -> bool;

impl Agent {
    /// The number that this call is refused by.
    pub fn refusal(&self, record: &Record) -> Option<u8> {
        let tests: [(u8, Test); 10] = [
            (2, Agent::beyond_settings),
            (3, Agent::beyond_clock),
            (4, Agent::too_long),
            (5, Agent::bad_message),
            (6, Agent::wrong_class),
            (7, Agent::in_progress),
            (8, Agent::table_full),
            (9, Agent::no_request),
            (10, Agent::peers_full),
            (11, Agent::no_stats),
        ];
        tests.iter().find(|(_, test)| test(self, record)).map(|&(number, _)| number)
    }

    fn beyond_settings(&self, record: &Record) -> bool {
        matches!(record, Record::Configure { rto, .. } if settings_refused(rto))
    }

    fn beyond_clock(&self, record: &Record) -> bool {
        record.clock().is_some_and(|clock| clock > LAST_CLOCK || clock < self.mark)
    }

    fn too_long(&self, record: &Record) -> bool {
        matches!(record, Record::Request { message, .. } if message.len() > REQUEST_LIMIT)
    }

    fn bad_message(&self, record: &Record) -> bool {
        record.message().is_some_and(|message| Head::read(message).is_none())
    }

    fn wrong_class(&self, record: &Record) -> bool {
        match record {
            Record::Request { message, .. } => class_of(message) != Some(Class::Request),
            Record::Send { message, .. } => class_of(message) == Some(Class::Request),
            _ => false,
        }
    }

    fn in_progress(&self, record: &Record) -> bool {
        matches!(record, Record::Request { message, .. } if id_of(message).is_some_and(|id| self.find(&id).is_some()))
    }

    fn table_full(&self, record: &Record) -> bool {
        matches!(record, Record::Request { .. }) && self.requests.len() >= ROWS
    }

    fn no_request(&self, record: &Record) -> bool {
        match record {
            Record::CancelRetransmissions(id)
            | Record::Cancel(id)
            | Record::Configure { id, .. }
            | Record::Query(id) => self.find(id).is_none(),
            _ => false,
        }
    }

    /// A response that nobody asked for is "not accepted" before this number is considered.
    fn peers_full(&self, record: &Record) -> bool {
        let newcomer = match record {
            Record::ValidatePeer(address) => address,
            Record::Received { from, message, .. } if self.accepts(message) => from,
            _ => return false,
        };
        !self.peers.contains(newcomer) && self.peers.len() >= PEERS
    }

    fn no_stats(&self, record: &Record) -> bool {
        matches!(record, Record::Statistics | Record::Reset) && self.statistics.is_none()
    }

    /// Whether a received message is accepted: every one but a response with no outstanding request.
    pub fn accepts(&self, message: &[u8]) -> bool {
        Head::read(message).is_some_and(|head| match head.class {
            Class::Request | Class::Indication => true,
            Class::Success | Class::Error => self.find(&head.id).is_some(),
        })
    }
}

fn class_of(message: &[u8]) -> Option<Class> {
    Head::read(message).map(|head| head.class)
}

fn id_of(message: &[u8]) -> Option<Id> {
    Head::read(message).map(|head| head.id)
}
