//! What calls are made of: identifiers and addresses that differ little, settings, messages of every shape.

use crate::random::Random;
use records::{
    attribute, fingerprint, message, Address, Class, Id, Rto, FINGERPRINT, INTEGRITY, INTEGRITY_SHA256, NO_MAXIMUM,
};

const MILLISECOND: u64 = 1_000_000;

/// Attribute types that are neither integrity nor FINGERPRINT; some differ from those in one byte.
const PLAIN_TYPES: [u16; 10] = [0x0001, 0x0006, 0x0009, 0x001B, 0x0020, 0x0800, 0x1C00, 0x8022, 0x8029, 0xFFFF];

/// Identifiers that differ from the first in one byte, which may be any.
pub fn identifiers(random: &mut Random, count: usize) -> Vec<Id> {
    let base: Id = match random.below(3) {
        0 => [0; 12],
        1 => [0xFF; 12],
        _ => random.bytes(12).try_into().expect("twelve bytes"),
    };
    let mut ids = vec![base];
    while ids.len() < count {
        let mut id = base;
        let place = random.index(12);
        let edges = [0x00, 0x01, 0x7F, 0x80, 0xFF, random.byte()];
        id[place] = random.pick(&edges);
        if !ids.contains(&id) {
            ids.push(id);
        }
    }
    ids
}

/// Addresses of both kinds that differ from the first of their kind in one field.
pub fn addresses(random: &mut Random, count: usize) -> Vec<Address> {
    let four: [u8; 4] = random.bytes(4).try_into().expect("four bytes");
    let mut six: [u8; 16] = random.bytes(16).try_into().expect("sixteen bytes");
    six[..4].copy_from_slice(&four);
    let port = random.next() as u16;
    let mut all = vec![Address::V4 { address: four, port }, Address::V6 { address: six, port, flow: 0, scope: 0 }];
    while all.len() < count {
        let base = all[random.index(2)];
        let changed = changed_field(random, base);
        if !all.contains(&changed) {
            all.push(changed);
        }
    }
    all
}

fn changed_field(random: &mut Random, base: Address) -> Address {
    let bit = 1u8 << random.below(8);
    match base {
        Address::V4 { mut address, port } => {
            if random.chance(30) {
                return Address::V4 { address, port: port ^ u16::from(bit) };
            }
            address[random.index(4)] ^= bit;
            Address::V4 { address, port }
        }
        Address::V6 { mut address, port, flow, scope } => match random.below(5) {
            0 => Address::V6 { address, port: port ^ u16::from(bit) << 8, flow, scope },
            1 => Address::V6 { address, port, flow: flow ^ u32::from(bit), scope },
            2 => Address::V6 { address, port, flow, scope: scope ^ u32::from(bit) << 24 },
            _ => {
                address[random.index(16)] ^= bit;
                Address::V6 { address, port, flow, scope }
            }
        },
    }
}

/// Settings inside the domain: no product, and by TCP no sum, above 2^61.
pub fn settings(random: &mut Random, tcp: bool) -> Rto {
    let some = random.below(20);
    let any = random.below(34) as u32;
    let transmissions = random.pick(&[0, 1, 2, 2, 3, 3, 4, 7, 33, any]);
    let final_wait =
        random.pick(&[0, 1, 3, some, 8 * MILLISECOND, 8000 * MILLISECOND, 3_600_000 * MILLISECOND, NO_MAXIMUM]);
    let taken = if tcp { final_wait } else { 0 };
    let most = (NO_MAXIMUM - taken) >> (transmissions.max(1) - 1);
    let wished = random.pick(&[0, 1, 2, 3, some, 1000, 500 * MILLISECOND, 3000 * MILLISECOND, NO_MAXIMUM]);
    let initial = wished.min(most);
    let max = random.pick(&[
        0,
        1,
        some,
        initial,
        initial.saturating_mul(3).min(NO_MAXIMUM),
        3000 * MILLISECOND,
        NO_MAXIMUM,
        NO_MAXIMUM,
        NO_MAXIMUM - 1,
    ]);
    Rto { initial, max, transmissions, final_wait }
}

/// A message inside the domain, of at most `limit` bytes.
pub fn inside_message(random: &mut Random, class: Class, id: &Id, limit: usize) -> Vec<u8> {
    let any = random.below(0x1000) as u16;
    let method = random.pick(&[1, 1, 1, 0, 2, 0xFFF, any]);
    let integrity = match random.below(5) {
        0 => attribute(INTEGRITY, &random.bytes(20), 0),
        1 => {
            let length = random.pick(&[16, 20, 32]);
            attribute(INTEGRITY_SHA256, &random.bytes(length), 0)
        }
        _ => Vec::new(),
    };
    let marked = random.chance(25);
    let behind = integrity.len() + if marked { 8 } else { 0 };
    let mut attributes = plain_attributes(random, limit - 20 - behind);
    attributes.extend(integrity);
    if marked {
        attributes.extend(attribute(FINGERPRINT, &[0; 4], 0));
    }
    let mut bytes = message(class, method, id, &attributes);
    if marked {
        let at = bytes.len() - 8;
        let value = fingerprint(&bytes[..at]);
        bytes[at + 4..].copy_from_slice(&value);
    }
    bytes
}

/// Attributes of every padding, or one that fills the room to the brim.
fn plain_attributes(random: &mut Random, room: usize) -> Vec<u8> {
    let kind = random.pick(&PLAIN_TYPES);
    let filler = random.pick(&[0, 0x20, 0xFF]);
    match random.below(10) {
        0..=3 => Vec::new(),
        4 => {
            let unused = random.index(4);
            attribute(kind, &vec![random.byte(); room - 4 - unused], filler)
        }
        _ => (0..1 + random.below(3))
            .flat_map(|_| {
                let length = random.index(10);
                attribute(random.pick(&PLAIN_TYPES), &random.bytes(length), filler)
            })
            .collect(),
    }
}

/// A message with integrity attributes and FINGERPRINTs in any number and order.
pub fn crowded_message(random: &mut Random, class: Class, id: &Id) -> Vec<u8> {
    let count = random.index(5);
    let attributes: Vec<u8> = (0..count)
        .flat_map(|_| {
            let kind = random.pick(&[INTEGRITY, INTEGRITY_SHA256, FINGERPRINT, 0x0006, 0x8022]);
            let length = random.pick(&[0, 1, 4, 20, 32]);
            attribute(kind, &random.bytes(length), 0)
        })
        .collect();
    message(class, 1, id, &attributes)
}

/// Bytes that break one rule of the message head.
pub fn bad_message(random: &mut Random, good: &[u8]) -> Vec<u8> {
    let mut bytes = good.to_vec();
    match random.below(9) {
        0 => bytes.truncate(random.index(20)),
        1 => bytes[0] |= random.pick(&[0x40, 0x80, 0xC0]),
        2 => bytes[4 + random.index(4)] ^= 1 << random.below(8),
        3 => bytes.extend([0; 4]),
        4 => bytes.truncate(bytes.len() - 4),
        5 => bytes[3] ^= random.pick(&[1, 2, 4]),
        6 => bytes.extend(vec![0; 1 + random.index(3)]),
        7 => extend_within(&mut bytes, &[0x80, 0x22, 0x00, random.pick(&[1, 4, 5, 255])]),
        _ => extend_within(&mut bytes, &[0x80, 0x22, 0x00, 0x06, 1, 2, 3, 4]),
    }
    bytes
}

/// Appends bytes that the message's length counts.
pub fn extend_within(message: &mut Vec<u8>, bytes: &[u8]) {
    message.extend(bytes);
    let length = u16::try_from(message.len() - 20).expect("a short message");
    message[2..4].copy_from_slice(&length.to_be_bytes());
}
