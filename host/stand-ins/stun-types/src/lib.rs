//! Stand-in for stun-types: the few types that agent.rs names, written from RFC 8489.

#![no_std]

extern crate alloc;

pub mod attribute;
pub mod data;
pub mod message;

/// What messages travel on.
#[derive(Debug, Clone, Copy, PartialEq, Eq)]
pub enum TransportType {
    /// Datagrams.
    Udp,
    /// A stream.
    Tcp,
}

impl core::fmt::Display for TransportType {
    fn fmt(&self, f: &mut core::fmt::Formatter<'_>) -> core::fmt::Result {
        write!(f, "{self:?}")
    }
}
