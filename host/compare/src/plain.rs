//! Plain names and small numbers for a trace that shows a difference, so that a person can read it.

use records::{Address, Id, Read, Record};

/// Identifiers 1, 2, .. in their old order and addresses 192.0.2.1, .. where the difference stays.
pub fn with_plain_names(parts: Vec<Vec<u8>>, shows: &dyn Fn(&[u8]) -> bool) -> Vec<Vec<u8>> {
    let mut ids: Vec<Id> = records(&parts).filter_map(|mut record| identifier(&mut record).copied()).collect();
    ids.sort();
    ids.dedup();
    let parts = kept_if_shown(parts, shows, |record| {
        if let Some(id) = identifier(record) {
            let number = 1 + ids.iter().position(|known| known == id).expect("every identifier was collected");
            *id = (number as u128).to_be_bytes()[4..].try_into().expect("twelve bytes");
        }
    });
    let mut addresses: Vec<Address> = Vec::new();
    for mut record in records(&parts) {
        addresses.extend(address(&mut record).copied().filter(|new| !addresses.contains(new)));
    }
    kept_if_shown(parts, shows, |record| {
        if let Some(old) = address(record) {
            let number = 1 + addresses.iter().position(|known| known == old).expect("every address was collected");
            *old = Address::V4 { address: [192, 0, 2, number as u8], port: 3478 };
        }
    })
}

/// Every clock and duration as small as it may be with the difference still there; equal ones stay equal.
pub fn with_smaller_numbers(mut parts: Vec<Vec<u8>>, shows: &dyn Fn(&[u8]) -> bool) -> Vec<Vec<u8>> {
    let mut values: Vec<u64> = Vec::new();
    for mut record in records(&parts) {
        values.extend(numbers(&mut record).into_iter().map(|number| *number));
    }
    values.sort();
    values.dedup();
    for mut value in values {
        let steps = std::iter::successors(Some(value), |step| Some(step / 2)).take_while(|&step| step > 0);
        for step in steps {
            let Some(smaller) = value.checked_sub(step) else { continue };
            let tried = changed(&parts, |record| replace(record, value, smaller));
            if shows(&tried.concat()) {
                (parts, value) = (tried, smaller);
            }
        }
    }
    parts
}

fn replace(record: &mut Record, old: u64, new: u64) {
    numbers(record).into_iter().filter(|number| **number == old).for_each(|number| *number = new);
}

fn records(parts: &[Vec<u8>]) -> impl Iterator<Item = Record> + '_ {
    parts.iter().filter_map(|part| match Record::read(part) {
        Read::Record(record, _) => Some(record),
        _ => None,
    })
}

/// The parts with a change in every record.
fn changed(parts: &[Vec<u8>], change: impl Fn(&mut Record)) -> Vec<Vec<u8>> {
    let one = |part: &Vec<u8>| match Record::read(part) {
        Read::Record(mut record, _) => {
            change(&mut record);
            record.encode()
        }
        _ => part.clone(),
    };
    parts.iter().map(one).collect()
}

/// The changed parts if the difference stays; else the parts as they were.
fn kept_if_shown(parts: Vec<Vec<u8>>, shows: &dyn Fn(&[u8]) -> bool, change: impl Fn(&mut Record)) -> Vec<Vec<u8>> {
    let changed = changed(&parts, change);
    if shows(&changed.concat()) {
        changed
    } else {
        parts
    }
}

fn numbers(record: &mut Record) -> Vec<&mut u64> {
    match record {
        Record::Settings { rto, .. } | Record::Configure { rto, .. } => {
            vec![&mut rto.initial, &mut rto.max, &mut rto.final_wait]
        }
        Record::Request { clock, .. }
        | Record::Received { clock: Some(clock), .. }
        | Record::PollTransmit(clock)
        | Record::Poll(clock) => vec![clock],
        _ => Vec::new(),
    }
}

/// The identifier that a record names, itself or in its message.
fn identifier(record: &mut Record) -> Option<&mut Id> {
    match record {
        Record::CancelRetransmissions(id) | Record::Cancel(id) | Record::Query(id) | Record::Configure { id, .. } => {
            Some(id)
        }
        Record::Request { message, .. } | Record::Send { message, .. } | Record::Received { message, .. } => {
            message.get_mut(8..)?.first_chunk_mut()
        }
        _ => None,
    }
}

fn address(record: &mut Record) -> Option<&mut Address> {
    match record {
        Record::Request { to: address, .. }
        | Record::Send { to: address, .. }
        | Record::Received { from: address, .. }
        | Record::IsPeerValid(address)
        | Record::ValidatePeer(address) => Some(address),
        _ => None,
    }
}
