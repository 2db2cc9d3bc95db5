//! Records of a trace and lines of answers, as document 01's "Replay program" lays them out.

mod address;
mod answer;
mod body;
mod message;

pub use address::Address;
pub use answer::{lines, room_for, Answer};
pub use body::{Read, Record, Rto, BODY_LIMIT, MARK};
pub use message::{
    attribute, fingerprint, message, Attribute, Class, Head, COOKIE, FINGERPRINT, INTEGRITY, INTEGRITY_SHA256,
};

/// The identifier of a request.
pub type Id = [u8; 12];

/// The duration that stands for "no maximum", and the largest there is.
pub const NO_MAXIMUM: u64 = 1 << 61;

/// The highest clock.
pub const LAST_CLOCK: u64 = 1 << 60;
