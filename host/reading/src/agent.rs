//! The agent (document 01, "The agent"): what each call does that isn't refused.

use crate::request::{Request, Standing, Waits};
use crate::statistics::{raise, Statistics};
use records::{Address, Answer, Class, Head, Id, Record, Rto, INTEGRITY, INTEGRITY_SHA256};

/// No wait is longer than an hour.
const LONGEST_WAIT: u64 = 3_600_000_000_000;

/// An agent with 64 peer places, as kind 1 makes it.
#[derive(Debug, Clone)]
pub struct Agent {
    pub tcp: bool,
    rto: Rto,
    /// None while they are off.
    pub statistics: Option<Statistics>,
    /// The highest clock that an unrefused call carried.
    pub mark: u64,
    /// In the order in which they came.
    pub requests: Vec<Request>,
    pub peers: Vec<Address>,
}

impl Agent {
    /// A fresh one.
    pub fn new(tcp: bool, statistics: bool, rto: Rto) -> Agent {
        Agent {
            tcp,
            rto,
            statistics: statistics.then(Statistics::default),
            mark: 0,
            requests: Vec::new(),
            peers: Vec::new(),
        }
    }

    /// Where the request of this identifier stands.
    pub fn find(&self, id: &Id) -> Option<usize> {
        self.requests.iter().position(|request| request.id == *id)
    }

    /// Plays a call other than settings: refused, or done.
    pub fn call(&mut self, record: &Record) -> Answer {
        if let Some(number) = self.refusal(record) {
            return Answer::Refused(number);
        }
        if let Some(clock) = record.clock() {
            self.mark = clock;
        }
        match record {
            Record::Settings { .. } => unreachable!("settings make another agent"),
            Record::Request { clock, to, message } => self.send_request(*clock, *to, message),
            Record::Send { message, .. } => self.send(message),
            Record::Received { clock, from, message } => self.received(*clock, *from, message),
            Record::PollTransmit(clock) => self.poll_transmit(*clock),
            Record::Poll(clock) => self.poll(*clock),
            Record::CancelRetransmissions(id) => self.change(id, |request| request.silent = true),
            Record::Cancel(id) => self.change(id, |request| {
                request.silent = true;
                request.cancelled = true;
            }),
            Record::Configure { id, rto } => {
                let waits = Waits::new(self.tcp, rto);
                self.change(id, |request| request.waits = waits)
            }
            Record::IsPeerValid(address) => match self.peers.contains(address) {
                true => Answer::Yes,
                false => Answer::No,
            },
            Record::ValidatePeer(address) => {
                self.validate(*address);
                Answer::Ok
            }
            Record::Statistics => self.statistics.as_ref().expect("refused while off").answer(),
            Record::Reset => {
                self.count(|statistics| *statistics = Statistics::default());
                Answer::Ok
            }
            Record::Query(id) => self.query(id),
        }
    }

    fn send_request(&mut self, now: u64, to: Address, message: &[u8]) -> Answer {
        let id = read(message).id;
        self.requests.push(Request {
            id,
            to,
            message: message.to_vec(),
            waits: Waits::new(self.tcp, &self.rto),
            steps: 0,
            last_send: now,
            silent: false,
            cancelled: false,
        });
        self.count(|statistics| {
            raise(&mut statistics.requests_sent, 1);
            raise(&mut statistics.bytes_sent, message.len() as u64);
        });
        Answer::Send { id, length: message.len() }
    }

    fn send(&mut self, message: &[u8]) -> Answer {
        let class = read(message).class;
        self.count(|statistics| {
            let counter = match class {
                Class::Indication => &mut statistics.indications_sent,
                _ => &mut statistics.responses_sent,
            };
            raise(counter, 1);
            raise(&mut statistics.bytes_sent, message.len() as u64);
        });
        Answer::Ok
    }

    fn received(&mut self, now: Option<u64>, from: Address, message: &[u8]) -> Answer {
        if !self.accepts(message) {
            return Answer::No;
        }
        let head = read(message);
        let answered = match head.class {
            Class::Success | Class::Error => self.find(&head.id).map(|at| self.requests.remove(at)),
            Class::Request | Class::Indication => None,
        };
        let unrepeated = answered.filter(|request| request.steps == 0);
        let rtt = unrepeated.zip(now).map(|(request, now)| now - request.last_send);
        self.count(|statistics| {
            let counter = match head.class {
                Class::Request => &mut statistics.requests_received,
                Class::Indication => &mut statistics.indications_received,
                Class::Success | Class::Error => &mut statistics.responses_received,
            };
            raise(counter, 1);
            raise(&mut statistics.bytes_received, message.len() as u64);
            if let Some(rtt) = rtt {
                statistics.sample(rtt);
            }
        });
        self.validate(from);
        Answer::Yes
    }

    /// Up the identifiers, past silent steps, to the first request that goes out.
    fn poll_transmit(&mut self, now: u64) -> Answer {
        for id in self.ascending() {
            let at = self.find(&id).expect("an identifier of the table");
            if self.requests[at].step(now) {
                let length = self.requests[at].message.len();
                self.count(|statistics| raise(&mut statistics.bytes_sent, length as u64));
                return Answer::Send { id, length };
            }
        }
        Answer::Nothing
    }

    /// The first request that timed out or was cancelled goes; else the earliest moment of all.
    fn poll(&mut self, now: u64) -> Answer {
        let mut earliest = u128::from(now + LONGEST_WAIT);
        for id in self.ascending() {
            let at = self.find(&id).expect("an identifier of the table");
            match self.requests[at].standing(now) {
                Standing::Until(moment) => earliest = earliest.min(moment),
                Standing::TimedOut => {
                    self.requests.remove(at);
                    self.count(|statistics| raise(&mut statistics.timed_out, 1));
                    return Answer::TimedOut(id);
                }
                Standing::Cancelled => {
                    self.requests.remove(at);
                    self.count(|statistics| raise(&mut statistics.cancelled, 1));
                    return Answer::Cancelled(id);
                }
            }
        }
        Answer::Wait(u64::try_from(earliest).expect("an hour from now at the latest"))
    }

    /// All identifiers of the table, the smallest first.
    fn ascending(&self) -> Vec<Id> {
        let mut ids: Vec<Id> = self.requests.iter().map(|request| request.id).collect();
        ids.sort();
        ids
    }

    fn change(&mut self, id: &Id, change: impl FnOnce(&mut Request)) -> Answer {
        let at = self.find(id).expect("refused when not outstanding");
        change(&mut self.requests[at]);
        Answer::Ok
    }

    /// The last of the two integrity types on the walk over all attributes.
    fn query(&self, id: &Id) -> Answer {
        let at = self.find(id).expect("refused when not outstanding");
        let attributes = read(&self.requests[at].message).attributes;
        let integrity = attributes.iter().rev().find_map(|attribute| match attribute.kind {
            INTEGRITY => Some(Answer::Sha1),
            INTEGRITY_SHA256 => Some(Answer::Sha256),
            _ => None,
        });
        integrity.unwrap_or(Answer::Nothing)
    }

    fn validate(&mut self, address: Address) {
        if !self.peers.contains(&address) {
            self.peers.push(address);
        }
    }

    fn count(&mut self, change: impl FnOnce(&mut Statistics)) {
        if let Some(statistics) = &mut self.statistics {
            change(statistics);
        }
    }
}

fn read(message: &[u8]) -> Head<'_> {
    Head::read(message).expect("bad messages were refused")
}
