//! Records: the frame of each and the body of each kind.

use crate::{Address, Id};

/// The two bytes that every record begins with.
pub const MARK: [u8; 2] = [0xA5, 0x5A];

/// The longest body.
pub const BODY_LIMIT: usize = 4096;

/// The four settings of a request's waits.
#[derive(Debug, Clone, Copy, PartialEq, Eq)]
pub struct Rto {
    pub initial: u64,
    pub max: u64,
    /// R, the number of transmissions.
    pub transmissions: u32,
    pub final_wait: u64,
}

/// One call of the replay.
#[derive(Debug, Clone, PartialEq, Eq)]
pub enum Record {
    Settings {
        tcp: bool,
        statistics: bool,
        rto: Rto,
    },
    Request {
        clock: u64,
        to: Address,
        message: Vec<u8>,
    },
    Send {
        to: Address,
        message: Vec<u8>,
    },
    /// Kind 4 with a clock, kind 5 without.
    Received {
        clock: Option<u64>,
        from: Address,
        message: Vec<u8>,
    },
    PollTransmit(u64),
    Poll(u64),
    CancelRetransmissions(Id),
    Cancel(Id),
    Configure {
        id: Id,
        rto: Rto,
    },
    IsPeerValid(Address),
    ValidatePeer(Address),
    Statistics,
    Reset,
    Query(Id),
}

/// What stands at the front of some bytes.
#[derive(Debug)]
pub enum Read<'a> {
    /// No byte is left.
    End,
    /// A record, and the bytes behind it.
    Record(Record, &'a [u8]),
    /// Something that is no record.
    Bad,
}

impl Record {
    /// Its kind byte.
    pub fn kind(&self) -> u8 {
        match self {
            Record::Settings { .. } => 1,
            Record::Request { .. } => 2,
            Record::Send { .. } => 3,
            Record::Received { clock: Some(_), .. } => 4,
            Record::Received { clock: None, .. } => 5,
            Record::PollTransmit(_) => 6,
            Record::Poll(_) => 7,
            Record::CancelRetransmissions(_) => 8,
            Record::Cancel(_) => 9,
            Record::Configure { .. } => 10,
            Record::IsPeerValid(_) => 11,
            Record::ValidatePeer(_) => 12,
            Record::Statistics => 13,
            Record::Reset => 14,
            Record::Query(_) => 15,
        }
    }

    /// The clock that it carries.
    pub fn clock(&self) -> Option<u64> {
        match *self {
            Record::Request { clock, .. } | Record::PollTransmit(clock) | Record::Poll(clock) => Some(clock),
            Record::Received { clock, .. } => clock,
            _ => None,
        }
    }

    /// The message that it carries.
    pub fn message(&self) -> Option<&[u8]> {
        match self {
            Record::Request { message, .. } | Record::Send { message, .. } | Record::Received { message, .. } => {
                Some(message)
            }
            _ => None,
        }
    }

    /// The frame and body of it.
    pub fn encode(&self) -> Vec<u8> {
        Record::frame(self.kind(), &self.body())
    }

    /// A frame around any body, fit or not, of at most 65,535 bytes.
    pub fn frame(kind: u8, body: &[u8]) -> Vec<u8> {
        let length = u16::try_from(body.len()).expect("a body's length has two bytes");
        let mut bytes = MARK.to_vec();
        bytes.push(kind);
        bytes.extend(length.to_be_bytes());
        bytes.extend(body);
        bytes
    }

    /// The body of it.
    pub fn body(&self) -> Vec<u8> {
        let mut body = Vec::new();
        match self {
            Record::Settings { tcp, statistics, rto } => {
                body.extend([u8::from(*tcp), u8::from(*statistics)]);
                put_rto(&mut body, rto);
            }
            Record::Request { clock, to, message } => put_message(&mut body, Some(*clock), to, message),
            Record::Send { to, message } => put_message(&mut body, None, to, message),
            Record::Received { clock, from, message } => put_message(&mut body, *clock, from, message),
            Record::PollTransmit(clock) | Record::Poll(clock) => body.extend(clock.to_be_bytes()),
            Record::CancelRetransmissions(id) | Record::Cancel(id) | Record::Query(id) => body.extend(id),
            Record::Configure { id, rto } => {
                body.extend(id);
                put_rto(&mut body, rto);
            }
            Record::IsPeerValid(address) | Record::ValidatePeer(address) => body.extend(address.encode()),
            Record::Statistics | Record::Reset => {}
        }
        body
    }

    /// Reads the record at the front.
    pub fn read(bytes: &[u8]) -> Read<'_> {
        if bytes.is_empty() {
            return Read::End;
        }
        Record::split(bytes)
            .and_then(|(kind, body, rest)| Some(Read::Record(Record::decode(kind, body)?, rest)))
            .unwrap_or(Read::Bad)
    }

    /// Kind and body of the frame at the front, and the bytes behind it.
    fn split(bytes: &[u8]) -> Option<(u8, &[u8], &[u8])> {
        let (head, rest) = bytes.split_first_chunk::<5>()?;
        let length = usize::from(u16::from_be_bytes([head[3], head[4]]));
        if head[..2] != MARK || length > BODY_LIMIT {
            return None;
        }
        let (body, rest) = rest.split_at_checked(length)?;
        Some((head[2], body, rest))
    }

    /// The record of this kind with this body.
    fn decode(kind: u8, body: &[u8]) -> Option<Record> {
        let mut fields = Fields(body);
        let record = match kind {
            1 => Record::Settings { tcp: fields.flag()?, statistics: fields.flag()?, rto: fields.rto()? },
            2 => Record::Request { clock: fields.u64()?, to: fields.address()?, message: fields.rest() },
            3 => Record::Send { to: fields.address()?, message: fields.rest() },
            4 => Record::Received { clock: Some(fields.u64()?), from: fields.address()?, message: fields.rest() },
            5 => Record::Received { clock: None, from: fields.address()?, message: fields.rest() },
            6 => Record::PollTransmit(fields.u64()?),
            7 => Record::Poll(fields.u64()?),
            8 => Record::CancelRetransmissions(fields.take()?),
            9 => Record::Cancel(fields.take()?),
            10 => Record::Configure { id: fields.take()?, rto: fields.rto()? },
            11 => Record::IsPeerValid(fields.address()?),
            12 => Record::ValidatePeer(fields.address()?),
            13 => Record::Statistics,
            14 => Record::Reset,
            15 => Record::Query(fields.take()?),
            _ => return None,
        };
        fields.0.is_empty().then_some(record)
    }
}

fn put_rto(body: &mut Vec<u8>, rto: &Rto) {
    body.extend(rto.initial.to_be_bytes());
    body.extend(rto.max.to_be_bytes());
    body.extend(rto.transmissions.to_be_bytes());
    body.extend(rto.final_wait.to_be_bytes());
}

fn put_message(body: &mut Vec<u8>, clock: Option<u64>, address: &Address, message: &[u8]) {
    body.extend(clock.into_iter().flat_map(u64::to_be_bytes));
    body.extend(address.encode());
    body.extend(message);
}

/// The part of a body that isn't read yet.
struct Fields<'a>(&'a [u8]);

impl Fields<'_> {
    fn take<const N: usize>(&mut self) -> Option<[u8; N]> {
        let (field, rest) = self.0.split_first_chunk()?;
        self.0 = rest;
        Some(*field)
    }

    fn flag(&mut self) -> Option<bool> {
        match self.take()? {
            [0] => Some(false),
            [1] => Some(true),
            [_] => None,
        }
    }

    fn u64(&mut self) -> Option<u64> {
        self.take().map(u64::from_be_bytes)
    }

    fn address(&mut self) -> Option<Address> {
        Address::decode(&self.take()?)
    }

    fn rto(&mut self) -> Option<Rto> {
        Some(Rto {
            initial: self.u64()?,
            max: self.u64()?,
            transmissions: self.take().map(u32::from_be_bytes)?,
            final_wait: self.u64()?,
        })
    }

    fn rest(&mut self) -> Vec<u8> {
        std::mem::take(&mut self.0).to_vec()
    }
}
