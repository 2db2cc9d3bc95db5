//! Messages: the head, the walk over the attributes, and making messages (RFC 8489, sections 5 and 14).

use crate::Id;

/// The fixed bytes 4 to 7 of a message.
pub const COOKIE: [u8; 4] = [0x21, 0x12, 0xA4, 0x42];

/// MESSAGE-INTEGRITY.
pub const INTEGRITY: u16 = 0x0008;

/// MESSAGE-INTEGRITY-SHA256.
pub const INTEGRITY_SHA256: u16 = 0x001C;

/// FINGERPRINT.
pub const FINGERPRINT: u16 = 0x8028;

/// What a message is for.
#[derive(Debug, Clone, Copy, PartialEq, Eq)]
pub enum Class {
    Request,
    Indication,
    Success,
    Error,
}

impl Class {
    /// The class in a message's type: bit 8 and bit 4.
    fn of(kind: u16) -> Class {
        match kind & 0x0110 {
            0x0000 => Class::Request,
            0x0010 => Class::Indication,
            0x0100 => Class::Success,
            _ => Class::Error,
        }
    }

    /// The type of a message of this class; the method's 12 bits go around the class's two.
    fn with_method(self, method: u16) -> u16 {
        let class = match self {
            Class::Request => 0x0000,
            Class::Indication => 0x0010,
            Class::Success => 0x0100,
            Class::Error => 0x0110,
        };
        (method & 0x0F80) << 2 | (method & 0x0070) << 1 | (method & 0x000F) | class
    }
}

/// An attribute on the walk.
#[derive(Debug, Clone, Copy)]
pub struct Attribute<'a> {
    pub kind: u16,
    /// Where it begins in the message.
    pub at: usize,
    pub value: &'a [u8],
}

/// A message that breaks no rule, taken apart.
#[derive(Debug)]
pub struct Head<'a> {
    pub class: Class,
    pub id: Id,
    pub attributes: Vec<Attribute<'a>>,
}

impl Head<'_> {
    /// Reads a message; none where the bytes break a rule of document 01's "Message head".
    pub fn read(bytes: &[u8]) -> Option<Head<'_>> {
        let (head, _) = bytes.split_first_chunk::<20>()?;
        let kind = u16::from_be_bytes([head[0], head[1]]);
        let length = usize::from(u16::from_be_bytes([head[2], head[3]]));
        let fits = kind < 0x4000 && head[4..8] == COOKIE && length % 4 == 0 && bytes.len() == 20 + length;
        if !fits {
            return None;
        }
        Some(Head {
            class: Class::of(kind),
            id: *head.last_chunk().expect("the head ends in the identifier"),
            attributes: walk(bytes)?,
        })
    }
}

/// All attributes behind the head; none when one passes the end.
fn walk(bytes: &[u8]) -> Option<Vec<Attribute<'_>>> {
    let mut found = Vec::new();
    let mut at = 20;
    while at < bytes.len() {
        let head: &[u8; 4] = bytes[at..].first_chunk()?;
        let length = usize::from(u16::from_be_bytes([head[2], head[3]]));
        let next = at + 4 + length.div_ceil(4) * 4;
        if next > bytes.len() {
            return None;
        }
        found.push(Attribute {
            kind: u16::from_be_bytes([head[0], head[1]]),
            at,
            value: &bytes[at + 4..at + 4 + length],
        });
        at = next;
    }
    Some(found)
}

/// An attribute with its padding, every byte of which is `filler`.
pub fn attribute(kind: u16, value: &[u8], filler: u8) -> Vec<u8> {
    let length = u16::try_from(value.len()).expect("an attribute's length has two bytes");
    let mut bytes = kind.to_be_bytes().to_vec();
    bytes.extend(length.to_be_bytes());
    bytes.extend(value);
    bytes.resize(bytes.len().next_multiple_of(4), filler);
    bytes
}

/// A message of this class, method (12 bits) and identifier around attributes that are already laid out.
pub fn message(class: Class, method: u16, id: &Id, attributes: &[u8]) -> Vec<u8> {
    let length = u16::try_from(attributes.len()).expect("a message's length has two bytes");
    let mut bytes = class.with_method(method).to_be_bytes().to_vec();
    bytes.extend(length.to_be_bytes());
    bytes.extend(COOKIE);
    bytes.extend(id);
    bytes.extend(attributes);
    bytes
}

/// The value of a FINGERPRINT that follows these bytes, whose length field already counts it (section 14.7).
pub fn fingerprint(before: &[u8]) -> [u8; 4] {
    let crc = before.iter().fold(!0u32, |crc, &byte| {
        (0..8).fold(crc ^ u32::from(byte), |crc, _| crc >> 1 ^ if crc & 1 == 1 { 0xEDB8_8320 } else { 0 })
    });
    (!crc ^ 0x5354_554E).to_be_bytes()
}

#[cfg(test)]
mod tests {
    use super::*;

    /// RFC 5769, section 2.1: a request with SHA-1 integrity and a FINGERPRINT.
    const SAMPLE: &str = "000100582112a442b7e7a701bc34d686fa87dfae802200105354554e20746573\
        7420636c69656e74002400046e0001ff80290008932ff9b151263b36000600096576746a3a68367659202020\
        000800149aeaa70cbfd8cb56781ef2b5b2d3f249c1b571a280280004e57a3bcf";

    fn sample() -> Vec<u8> {
        (0..SAMPLE.len()).step_by(2).map(|at| u8::from_str_radix(&SAMPLE[at..at + 2], 16).unwrap()).collect()
    }

    #[test]
    fn the_outside_sample_reads_as_it_should() {
        let bytes = sample();
        let head = Head::read(&bytes).expect("a good message");
        assert_eq!(head.class, Class::Request);
        let kinds: Vec<u16> = head.attributes.iter().map(|attribute| attribute.kind).collect();
        assert_eq!(kinds, [0x8022, 0x0024, 0x8029, 0x0006, INTEGRITY, FINGERPRINT]);
        let last = head.attributes.last().unwrap();
        assert_eq!(fingerprint(&bytes[..last.at]), last.value);
    }

    #[test]
    fn every_shortened_or_lengthened_sample_is_bad() {
        let bytes = sample();
        assert!((0..bytes.len()).all(|length| Head::read(&bytes[..length]).is_none()));
        assert!(Head::read(&[bytes, vec![0; 4]].concat()).is_none());
    }

    #[test]
    fn class_and_method_lie_around_each_other() {
        assert_eq!(Class::Request.with_method(1), 0x0001);
        assert_eq!(Class::Indication.with_method(1), 0x0011);
        assert_eq!(Class::Success.with_method(1), 0x0101);
        assert_eq!(Class::Error.with_method(1), 0x0111);
        assert_eq!(Class::Error.with_method(0xFFF), 0x3FFF);
        for class in [Class::Request, Class::Indication, Class::Success, Class::Error] {
            assert!((0..0x1000).all(|method| Class::of(class.with_method(method)) == class));
        }
    }
}
