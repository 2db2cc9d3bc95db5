//! Message head and attribute walk (RFC 8489, sections 5 and 14).

use crate::attribute::{AttributeType, RawAttribute};

const HEAD: usize = 20;
const COOKIE: [u8; 4] = [0x21, 0x12, 0xA4, 0x42];

/// What a message is for: bits 8 and 4 of its type.
#[derive(Debug, Clone, Copy, PartialEq, Eq)]
pub enum MessageClass {
    /// 0b00.
    Request,
    /// 0b01.
    Indication,
    /// 0b10.
    Success,
    /// 0b11.
    Error,
}

/// The first two bytes of a message.
#[derive(Debug, Clone, Copy, PartialEq, Eq)]
pub struct MessageType(u16);

impl MessageType {
    /// The class in it.
    pub fn class(self) -> MessageClass {
        match (self.0 & 0x0100 != 0, self.0 & 0x0010 != 0) {
            (false, false) => MessageClass::Request,
            (false, true) => MessageClass::Indication,
            (true, false) => MessageClass::Success,
            (true, true) => MessageClass::Error,
        }
    }

    /// Whether the class in it is this one.
    pub fn has_class(self, class: MessageClass) -> bool {
        self.class() == class
    }
}

/// The identifier of a transaction: 12 bytes, ordered with the first byte heaviest.
#[derive(Debug, Clone, Copy, PartialEq, Eq, PartialOrd, Ord)]
pub struct TransactionId(pub [u8; 12]);

impl core::fmt::Display for TransactionId {
    fn fmt(&self, f: &mut core::fmt::Formatter<'_>) -> core::fmt::Result {
        self.0.iter().try_for_each(|byte| write!(f, "{byte:02x}"))
    }
}

/// Bytes that are no message.
#[derive(Debug)]
pub struct StunParseError;

/// A message that couldn't be written; nothing here writes any.
#[derive(Debug)]
pub struct StunWriteError;

/// What an integrity attribute is made with.
#[derive(Debug, Clone, Copy, PartialEq, Eq)]
pub enum IntegrityAlgorithm {
    /// HMAC-SHA-1.
    Sha1,
    /// HMAC-SHA-256.
    Sha256,
}

/// The 20 bytes that every message begins with.
#[derive(Debug, Clone, Copy)]
pub struct MessageHeader {
    kind: MessageType,
    transaction_id: TransactionId,
}

impl MessageHeader {
    /// Reads the head: two zero bits, a length, the cookie and the identifier.
    pub fn from_bytes(data: &[u8]) -> Result<Self, StunParseError> {
        let head: &[u8; HEAD] = data.first_chunk().ok_or(StunParseError)?;
        if head[0] & 0xC0 != 0 || head[4..8] != COOKIE {
            return Err(StunParseError);
        }
        let mut identifier = [0; 12];
        identifier.copy_from_slice(&head[8..]);
        Ok(MessageHeader {
            kind: MessageType(u16::from_be_bytes([head[0], head[1]])),
            transaction_id: TransactionId(identifier),
        })
    }

    /// The message's type.
    pub fn get_type(&self) -> MessageType {
        self.kind
    }

    /// The message's identifier.
    pub fn transaction_id(&self) -> TransactionId {
        self.transaction_id
    }
}

/// A whole message.
#[derive(Debug)]
pub struct Message<'a> {
    header: MessageHeader,
    data: &'a [u8],
}

impl<'a> Message<'a> {
    /// Reads a message: a head, a length that fits the bytes, and attributes that end where it ends.
    pub fn from_bytes(data: &'a [u8]) -> Result<Self, StunParseError> {
        let header = MessageHeader::from_bytes(data)?;
        let length = usize::from(u16::from_be_bytes([data[2], data[3]]));
        let mut walk = MessageAttributesIter::new(data);
        walk.by_ref().for_each(drop);
        if length % 4 != 0 || data.len() != HEAD + length || walk.at != data.len() {
            return Err(StunParseError);
        }
        Ok(Message { header, data })
    }

    /// The class of the message.
    pub fn class(&self) -> MessageClass {
        self.header.get_type().class()
    }

    /// Whether it answers a request.
    pub fn is_response(&self) -> bool {
        matches!(self.class(), MessageClass::Success | MessageClass::Error)
    }

    /// The message's identifier.
    pub fn transaction_id(&self) -> TransactionId {
        self.header.transaction_id()
    }

    /// The bytes it was read from.
    pub fn as_bytes(&self) -> &[u8] {
        self.data
    }
}

/// Walks over the attributes behind a head; ends at the first that doesn't fit.
#[derive(Debug)]
pub struct MessageAttributesIter<'a> {
    data: &'a [u8],
    at: usize,
}

impl<'a> MessageAttributesIter<'a> {
    /// A walk over this message's attributes.
    pub fn new(data: &'a [u8]) -> Self {
        MessageAttributesIter { data, at: HEAD }
    }
}

impl Iterator for MessageAttributesIter<'_> {
    type Item = (usize, RawAttribute);

    fn next(&mut self) -> Option<Self::Item> {
        let at = self.at;
        let head: &[u8; 4] = self.data.get(at..)?.first_chunk()?;
        let length = usize::from(u16::from_be_bytes([head[2], head[3]]));
        let next = at + 4 + length.next_multiple_of(4);
        if next > self.data.len() {
            return None;
        }
        self.at = next;
        let kind = AttributeType(u16::from_be_bytes([head[0], head[1]]));
        Some((at, RawAttribute::new(kind)))
    }
}
