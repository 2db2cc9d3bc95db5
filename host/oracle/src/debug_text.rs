//! Reads the statistics record's Debug text, which shows the counters that have no accessor.

use records::Answer;
use stun_proto::stats::StunAgentStats;

/// The 14 fields in the order in which the record declares them, as the answer to kind 13.
pub fn statistics(record: &StunAgentStats) -> Answer {
    let text = format!("{record:?}");
    let inner = text
        .strip_prefix("StunAgentStats { ")
        .and_then(|rest| rest.strip_suffix(" }"))
        .unwrap_or_else(|| panic!("not the Debug text of a statistics record: {text}"));
    let fields: Vec<Option<u64>> = inner.split(", ").map(field).collect();
    Answer::Stats(fields.try_into().expect("fourteen fields"))
}

/// The value of `name: value`.
fn field(text: &str) -> Option<u64> {
    let (_, value) = text.split_once(": ").unwrap_or_else(|| panic!("no field: {text}"));
    let value = value.strip_prefix("Some(").and_then(|inner| inner.strip_suffix(')')).unwrap_or(value);
    match value {
        "None" => None,
        number if number.ends_with('s') => Some(nanoseconds(number)),
        number => Some(number.parse().expect("a counter")),
    }
}

/// A duration's Debug text (`1.5s`, `20ms`, `3.25µs`, `7ns`) in nanoseconds; it is exact.
fn nanoseconds(text: &str) -> u64 {
    let unit_at = text.find(|c: char| !c.is_ascii_digit() && c != '.').expect("a unit");
    let (number, unit) = text.split_at(unit_at);
    let digits = match unit {
        "s" => 9,
        "ms" => 6,
        "µs" => 3,
        "ns" => 0,
        _ => panic!("an unknown unit: {text}"),
    };
    let (whole, part) = number.split_once('.').unwrap_or((number, ""));
    format!("{whole}{part:0<digits$}").parse().expect("whole nanoseconds below 2^64")
}

#[cfg(test)]
mod tests {
    use super::*;
    use std::time::Duration;

    #[test]
    fn every_size_of_duration_is_read_exactly() {
        let digits = (0..19).flat_map(|power| [1, 9].map(|digit| digit * 10u64.pow(power)));
        for nanos in digits.flat_map(|n| [n, n + 1, n.wrapping_mul(123_457) >> 3]).chain([0, 1 << 61]) {
            assert_eq!(nanoseconds(&format!("{:?}", Duration::from_nanos(nanos))), nanos);
        }
    }

    #[test]
    fn a_zeroed_record_has_two_absent_fields() {
        let mut fields = [Some(0); 14];
        fields[11..13].fill(None);
        assert_eq!(statistics(&StunAgentStats::default()), Answer::Stats(fields));
    }
}
