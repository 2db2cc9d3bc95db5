//! The traces that are timed: each inside the domain, so that the Rust decides every line.

use records::{attribute, message, Address, Class, Id, Record, Rto};

const MILLISECOND: u64 = 1_000_000;
const SECOND: u64 = 1000 * MILLISECOND;

/// How many records a trace has, roughly.
const RECORDS: u64 = 4000;

/// RFC 8489's defaults (section 6.2.1).
const RTO: Rto = Rto { initial: 500 * MILLISECOND, max: records::NO_MAXIMUM, transmissions: 7, final_wait: 8 * SECOND };

/// Moments after its submission at which a request of these settings is due again.
const DUE: [u64; 6] = [500, 1500, 3500, 7500, 15_500, 31_500];

/// The moment after its submission at which it is over, the final wait being past.
const OVER: u64 = 39_500;

const SERVER: Address = Address::V4 { address: [192, 0, 2, 1], port: 3478 };

/// A trace with the words that the table shows for it.
pub struct Trace {
    pub name: &'static str,
    pub what: String,
    pub records: Vec<Record>,
}

impl Trace {
    /// Its bytes.
    pub fn bytes(&self) -> Vec<u8> {
        self.records.iter().flat_map(Record::encode).collect()
    }
}

/// How many requests stand in the idle traces; their cost shows how polling grows.
const CROWDS: [(&str, u64); 6] =
    [("idle1", 1), ("idle2", 2), ("idle4", 4), ("idle8", 8), ("idle16", 16), ("idle32", 32)];

/// All traces in the order of the table.
pub fn all() -> Vec<Trace> {
    let trace = |name, what: &str, records| Trace { name, what: what.to_owned(), records };
    let idle = CROWDS.map(|(name, crowd)| trace(name, &format!("idle polling, requests: {crowd}"), idle(crowd)));
    let others = [
        trace("pairs", "request and answer", pairs(false, 0)),
        trace("pairs-stats", "request and answer, statistics on", pairs(true, 0)),
        trace("pairs-crowd", "request and answer, among 31 others", pairs(false, 31)),
        trace("bad-line", "a bad line: seven sends and the end", bad_line(false)),
        trace("bad-line-stats", "a bad line, statistics on", bad_line(true)),
        trace("indications", "received indications", indications(false)),
        trace("indications-stats", "received indications, statistics on", indications(true)),
    ];
    idle.into_iter().chain(others).collect()
}

/// Polling in turns while nothing is due.
fn idle(crowd: u64) -> Vec<Record> {
    let polls = (0..RECORDS / 2).flat_map(|clock| [Record::PollTransmit(clock), Record::Poll(clock)]);
    begin(false, crowd).into_iter().chain(polls).collect()
}

/// A request and its answer, 20 ms later, over and over; the request's place is in the middle of the others.
fn pairs(statistics: bool, others: u64) -> Vec<Record> {
    let pair = |round: u64| {
        let (sent, id) = (round * 40 * MILLISECOND, identifier(others / 2, round + 1));
        [request(sent, &id), received(sent + 20 * MILLISECOND, Class::Success, &id)]
    };
    let end = statistics.then_some(Record::Statistics);
    begin(statistics, others).into_iter().chain((0..RECORDS / 2).flat_map(pair)).chain(end).collect()
}

/// A request that nobody answers: all its sends, each announced and made on time, and its end.
fn bad_line(statistics: bool) -> Vec<Record> {
    let one = |round: u64| {
        let (sent, id) = (round * 40 * SECOND, identifier(0, round + 1));
        let polls = DUE.into_iter().flat_map(move |due| {
            let clock = sent + due * MILLISECOND;
            [Record::Poll(clock - 1), Record::PollTransmit(clock)]
        });
        std::iter::once(request(sent, &id)).chain(polls).chain([Record::Poll(sent + OVER * MILLISECOND)])
    };
    let end = statistics.then_some(Record::Statistics);
    begin(statistics, 0).into_iter().chain((0..RECORDS / 14).flat_map(one)).chain(end).collect()
}

/// Indications from somebody who needs no validation to be heard.
fn indications(statistics: bool) -> Vec<Record> {
    let one = |round: u64| received(round * MILLISECOND, Class::Indication, &identifier(0, round));
    let end = statistics.then_some(Record::Statistics);
    begin(statistics, 0).into_iter().chain((0..RECORDS).map(one)).chain(end).collect()
}

/// A fresh agent with this many requests, submitted at 0.
fn begin(statistics: bool, crowd: u64) -> Vec<Record> {
    let settings = Record::Settings { tcp: false, statistics, rto: RTO };
    std::iter::once(settings).chain((0..crowd).map(|place| request(0, &identifier(place, 0)))).collect()
}

fn request(clock: u64, id: &Id) -> Record {
    Record::Request { clock, to: SERVER, message: message(Class::Request, 1, id, &[]) }
}

/// A message from the server with an address attribute, as an answer to Binding has it.
fn received(clock: u64, class: Class, id: &Id) -> Record {
    let mapped = attribute(0x0020, &[0, 1, 0x2c, 0x56, 0xe1, 0x12, 0xa6, 0x43], 0);
    Record::Received { clock: Some(clock), from: SERVER, message: message(class, 1, id, &mapped) }
}

/// The identifier of a request in its place among others.
fn identifier(place: u64, round: u64) -> Id {
    let mut id = [0; 12];
    id[..4].copy_from_slice(&u32::try_from(place).expect("few places").to_be_bytes());
    id[4..].copy_from_slice(&round.to_be_bytes());
    id
}
