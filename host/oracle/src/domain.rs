//! Which lines the Rust decides (document 01, "Domain of the differential runs").

use reading::Agent;
use records::{fingerprint, Answer, Head, Record, Rto, FINGERPRINT, INTEGRITY, INTEGRITY_SHA256, NO_MAXIMUM};

/// The refusals that the Rust has too: AlreadyInProgress, no such request, no statistics.
const RUST_REFUSES: [u8; 3] = [7, 9, 11];

/// Whether the trace is inside the domain so far; a fresh agent brings it back in.
#[derive(Debug, Default)]
pub struct Domain {
    inside: bool,
}

impl Domain {
    /// Whether the Rust is asked for this answer. `agent` is the second reading's, after the call.
    pub fn leaves_to_rust(&mut self, record: &Record, answer: &Answer, agent: &Agent) -> bool {
        match answer {
            Answer::Bad => return false,
            Answer::Refused(number) => return self.inside && RUST_REFUSES.contains(number),
            _ => {}
        }
        match record {
            Record::Settings { tcp, rto, .. } => self.inside = durations_fit(*tcp, rto),
            Record::Configure { rto, .. } => self.inside &= durations_fit(agent.tcp, rto),
            _ => self.inside &= record.message().is_none_or(message_fits) && sum_fits(agent),
        }
        self.inside
    }
}

/// No product, looked at before the cap by the maximum, and no sum by TCP above 2^61.
fn durations_fit(tcp: bool, rto: &Rto) -> bool {
    let limit = u128::from(NO_MAXIMUM);
    let products: Vec<u128> = (0..rto.transmissions.max(1) - 1).map(|index| u128::from(rto.initial) << index).collect();
    let sum: u128 = products.iter().map(|&product| product.min(rto.max.into())).sum();
    products.iter().all(|&product| product <= limit) && (!tcp || sum + u128::from(rto.final_wait) <= limit)
}

/// At most one integrity attribute, nothing but FINGERPRINT behind it, and that right and in the last place.
fn message_fits(message: &[u8]) -> bool {
    let Some(head) = Head::read(message) else { return false };
    let ends = |kind| [INTEGRITY, INTEGRITY_SHA256, FINGERPRINT].contains(&kind);
    let first = head.attributes.iter().position(|attribute| ends(attribute.kind)).unwrap_or(head.attributes.len());
    match &head.attributes[first..] {
        [] => true,
        [only] => only.kind != FINGERPRINT || only.value == fingerprint(&message[..only.at]),
        [integrity, last] => {
            integrity.kind != FINGERPRINT && last.kind == FINGERPRINT && last.value == fingerprint(&message[..last.at])
        }
        _ => false,
    }
}

/// The sum of round trips is no more than 2^61: the Rust's has no stop.
fn sum_fits(agent: &Agent) -> bool {
    agent.statistics.as_ref().is_none_or(|statistics| statistics.rtt_sum <= NO_MAXIMUM)
}

#[cfg(test)]
mod tests {
    use super::*;
    use records::{attribute, message, Class};

    fn with(attributes: &[Vec<u8>]) -> bool {
        message_fits(&message(Class::Request, 1, &[7; 12], &attributes.concat()))
    }

    /// A FINGERPRINT behind these attributes.
    fn marked(attributes: &[Vec<u8>]) -> bool {
        let mut laid = attributes.concat();
        laid.extend(attribute(FINGERPRINT, &[0; 4], 0));
        let mut bytes = message(Class::Request, 1, &[7; 12], &laid);
        let at = bytes.len() - 8;
        let value = fingerprint(&bytes[..at]);
        bytes[at + 4..].copy_from_slice(&value);
        message_fits(&bytes)
    }

    #[test]
    fn one_integrity_and_a_right_fingerprint_are_inside() {
        let (name, sha1, sha256) =
            (attribute(6, b"name", 0), attribute(INTEGRITY, &[1; 20], 0), attribute(INTEGRITY_SHA256, &[2; 32], 0));
        assert!(with(&[]) && with(std::slice::from_ref(&name)) && with(&[name.clone(), sha1.clone()]));
        assert!(marked(&[]) && marked(&[name.clone(), sha256.clone()]) && marked(std::slice::from_ref(&sha1)));
        assert!(!with(&[sha1.clone(), sha256.clone()]) && !with(&[sha1.clone(), name.clone()]));
        assert!(!with(&[sha1.clone(), sha1]) && !marked(&[sha256, name]));
        assert!(!with(&[attribute(FINGERPRINT, &[0; 4], 0)]), "a wrong fingerprint");
    }

    #[test]
    fn products_count_before_the_cap_and_sums_by_tcp() {
        let rto = |initial, max, transmissions, final_wait| Rto { initial, max, transmissions, final_wait };
        assert!(durations_fit(false, &rto(1 << 30, 5, 33, 1 << 61)));
        assert!(!durations_fit(false, &rto((1 << 30) + 1, 5, 33, 0)));
        assert!(durations_fit(true, &rto(1 << 60, 1 << 61, 2, 1 << 60)));
        assert!(!durations_fit(true, &rto(1 << 60, 1 << 61, 2, (1 << 60) + 1)));
    }
}
