//! Hands a record's call to stun-proto's agent and puts what it says into document 01's words.

use crate::debug_text;
use records::{Address, Answer, Id, Record, Rto, NO_MAXIMUM};
use std::collections::BTreeMap;
use std::net::{Ipv4Addr, Ipv6Addr, SocketAddr, SocketAddrV4, SocketAddrV6};
use std::time::Duration;
use stun_proto::agent::{StunAgent, StunAgentPollRet, StunError, StunRequestMut, Transmit};
use stun_proto::stats::StunAgentStats;
use stun_proto::Instant;
use stun_types::message::{IntegrityAlgorithm, Message, TransactionId};
use stun_types::TransportType;

/// The agent's own address; no line shows it, every transmission must come from it.
const LOCAL: SocketAddr = SocketAddr::V4(SocketAddrV4::new(Ipv4Addr::new(192, 0, 2, 200), 40_000));

/// The Rust agent; with CHECKED, what no line shows is held against what the port is proved to answer: each
/// transmission, the query's address, the average and the outstanding count.
pub struct RustAgent<const CHECKED: bool> {
    agent: StunAgent,
    /// Bytes and address of every request that was sent, by identifier; nothing unless CHECKED.
    submitted: BTreeMap<Id, (Vec<u8>, SocketAddr)>,
}

impl<const CHECKED: bool> RustAgent<CHECKED> {
    /// A fresh agent; its settings are given outright.
    pub fn new(tcp: bool, statistics: bool, rto: &Rto) -> Self {
        let transport = if tcp { TransportType::Tcp } else { TransportType::Udp };
        let agent = StunAgent::builder(transport, LOCAL)
            .stats(statistics)
            .request_retransmits(
                Duration::from_nanos(rto.initial),
                maximum(rto.max),
                rto.transmissions,
                Duration::from_nanos(rto.final_wait),
            )
            .build();
        RustAgent { agent, submitted: BTreeMap::new() }
    }

    /// The answer to a call other than settings. Panics where the Rust does, and on a wrong transmission.
    pub fn call(&mut self, record: &Record) -> Answer {
        match record {
            Record::Settings { .. } => unreachable!("settings make another agent"),
            Record::Request { clock, to, message } => self.send_request(*clock, to, message),
            Record::Send { to, message } => self.send(to, message),
            Record::Received { clock, from, message } => self.received(*clock, from, message),
            Record::PollTransmit(clock) => self.poll_transmit(*clock),
            Record::Poll(clock) => self.poll(*clock),
            Record::CancelRetransmissions(id) => self.change(id, |request| request.cancel_retransmissions()),
            Record::Cancel(id) => self.change(id, |request| request.cancel()),
            Record::Configure { id, rto } => self.configure(id, rto),
            Record::IsPeerValid(address) => yes_or_no(self.agent.is_validated_peer(socket(address))),
            Record::ValidatePeer(address) => {
                self.agent.validated_peer(socket(address));
                Answer::Ok
            }
            Record::Statistics => self.agent.stats().map_or(Answer::Refused(11), |statistics| {
                if CHECKED {
                    check_figures(statistics);
                }
                debug_text::statistics(statistics)
            }),
            Record::Reset => self.agent.stats_mut().map_or(Answer::Refused(11), |statistics| {
                statistics.reset();
                Answer::Ok
            }),
            Record::Query(id) => self.query(id),
        }
    }

    fn send_request(&mut self, clock: u64, to: &Address, message: &[u8]) -> Answer {
        let to = socket(to);
        let transport = self.agent.transport();
        let transmit = match self.agent.send_request(message, to, Instant::from_nanos(clock)) {
            Ok(transmit) => transmit,
            Err(StunError::AlreadyInProgress) => return Answer::Refused(7),
            Err(error) => panic!("send_request: {error:?}"),
        };
        let id = identifier(transmit.data.as_ref());
        if CHECKED {
            check(&transmit, transport, message, to);
            self.submitted.insert(id, (message.to_vec(), to));
        }
        Answer::Send { id, length: message.len() }
    }

    fn send(&mut self, to: &Address, message: &[u8]) -> Answer {
        let to = socket(to);
        let transport = self.agent.transport();
        // `send` doesn't look at its clock, and kind 3 has none.
        match self.agent.send(message, to, Instant::from_nanos(0)) {
            Ok(transmit) if CHECKED => check(&transmit, transport, message, to),
            Ok(_) => {}
            Err(error) => panic!("send: {error:?}"),
        }
        Answer::Ok
    }

    fn received(&mut self, clock: Option<u64>, from: &Address, bytes: &[u8]) -> Answer {
        let message = Message::from_bytes(bytes).expect("a message that the second reading takes");
        let from = socket(from);
        yes_or_no(match clock {
            Some(clock) => self.agent.handle_stun_message_with_time(&message, from, Instant::from_nanos(clock)),
            #[allow(deprecated)] // kind 5 is this call
            None => self.agent.handle_stun_message(&message, from),
        })
    }

    fn poll_transmit(&mut self, clock: u64) -> Answer {
        let transport = self.agent.transport();
        let Some(transmit) = self.agent.poll_transmit(Instant::from_nanos(clock)) else {
            return Answer::Nothing;
        };
        let id = identifier(transmit.data);
        if CHECKED {
            let (message, to) = &self.submitted[&id];
            check(&transmit, transport, message, *to);
        }
        Answer::Send { id, length: transmit.data.len() }
    }

    fn poll(&mut self, clock: u64) -> Answer {
        match self.agent.poll(Instant::from_nanos(clock)) {
            StunAgentPollRet::TransactionTimedOut(id) => Answer::TimedOut(id.0),
            StunAgentPollRet::TransactionCancelled(id) => Answer::Cancelled(id.0),
            StunAgentPollRet::WaitUntil(moment) => {
                Answer::Wait(moment.as_nanos().try_into().expect("an hour from now at the latest"))
            }
        }
    }

    fn change(&mut self, id: &Id, change: impl FnOnce(&mut StunRequestMut<'_>)) -> Answer {
        self.agent.mut_request_transaction(TransactionId(*id)).map_or(Answer::Refused(9), |mut request| {
            change(&mut request);
            Answer::Ok
        })
    }

    /// The Rust's call takes initial, R, final wait, maximum; "no maximum" goes by its short form.
    fn configure(&mut self, id: &Id, rto: &Rto) -> Answer {
        let (initial, last) = (Duration::from_nanos(rto.initial), Duration::from_nanos(rto.final_wait));
        self.change(id, |request| match rto.max {
            NO_MAXIMUM => request.configure_timeout(initial, rto.transmissions, last),
            max => request.configure_timeout_with_max(initial, rto.transmissions, last, Duration::from_nanos(max)),
        })
    }

    fn query(&self, id: &Id) -> Answer {
        let Some(request) = self.agent.request_transaction(TransactionId(*id)) else {
            return Answer::Refused(9);
        };
        if CHECKED {
            assert_eq!(request.peer_address(), self.submitted[id].1, "the query's address");
        }
        match request.integrity() {
            None => Answer::Nothing,
            Some(IntegrityAlgorithm::Sha1) => Answer::Sha1,
            Some(IntegrityAlgorithm::Sha256) => Answer::Sha256,
        }
    }
}

/// Panics unless a transmission is the submitted bytes for the asked address.
fn check<T: AsRef<[u8]>>(transmit: &Transmit<T>, transport: TransportType, message: &[u8], to: SocketAddr) {
    assert_eq!(transmit.data.as_ref(), message, "the transmission's bytes");
    assert_eq!(transmit.to, to, "the transmission's address");
    assert_eq!((transmit.from, transmit.transport), (LOCAL, transport), "the transmission's sender");
}

/// Panics unless the two figures that no record asks for are what the port is proved to answer, of the same record:
/// "floor of sum by count; none without samples", and requests sent less those answered, timed out and cancelled.
/// Below zero, which is document 01's number 12, the Rust has no answer.
fn check_figures(statistics: &StunAgentStats) {
    let Answer::Stats(fields) = debug_text::statistics(statistics) else { unreachable!() };
    let [sent, _, _, answered, _, _, timed_out, cancelled, _, _, sum, _, _, count] =
        fields.map(Option::unwrap_or_default);
    let average = (count > 0).then(|| Duration::from_nanos(sum / count));
    assert_eq!(statistics.rtt_average(), average, "the average");
    if let Some(outstanding) = sent.checked_sub(answered + timed_out + cancelled) {
        assert_eq!(statistics.outstanding_requests(), outstanding, "the outstanding count");
    }
}

/// The identifier in a message.
fn identifier(message: &[u8]) -> Id {
    *message[8..].first_chunk().expect("a whole head")
}

/// 2^61 as a maximum stands for the Rust's `Duration::MAX`.
fn maximum(max: u64) -> Duration {
    match max {
        NO_MAXIMUM => Duration::MAX,
        max => Duration::from_nanos(max),
    }
}

fn socket(address: &Address) -> SocketAddr {
    match *address {
        Address::V4 { address, port } => SocketAddrV4::new(Ipv4Addr::from(address), port).into(),
        Address::V6 { address, port, flow, scope } => {
            SocketAddrV6::new(Ipv6Addr::from(address), port, flow, scope).into()
        }
    }
}

fn yes_or_no(yes: bool) -> Answer {
    if yes {
        Answer::Yes
    } else {
        Answer::No
    }
}
