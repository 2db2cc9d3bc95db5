//! The crate root that stun-proto's agent.rs and stats.rs are compiled under, unchanged and from where they stand.
//!
//! It takes the place of the crate's own lib.rs, which also names auth.rs.

#![no_std]
#![allow(unused_variables, dead_code)] // what only the real tracing reads

extern crate alloc;

pub use sans_io_time::Instant;
pub use stun_types as types;

include!(concat!(env!("OUT_DIR"), "/modules.rs"));
