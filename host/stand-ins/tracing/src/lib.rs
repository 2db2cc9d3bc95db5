//! Stand-in for tracing: the macros, the attribute and the span that agent.rs names, all without effect.

#![no_std]

pub use tracing_attributes::instrument;

/// Drops its arguments unread.
#[macro_export]
macro_rules! trace {
    ($($argument:tt)*) => {};
}

/// Drops its arguments unread.
#[macro_export]
macro_rules! debug {
    ($($argument:tt)*) => {};
}

/// A span that keeps nothing.
#[derive(Debug)]
pub struct Span;

impl Span {
    /// The one span there is.
    pub fn current() -> Self {
        Span
    }

    /// Drops the field and its value.
    pub fn record<V>(&self, _field: &str, _value: V) -> &Self {
        self
    }
}

/// How a span's field is to be shown.
pub mod field {
    /// Hands the value through: nothing is ever shown.
    pub fn display<T: core::fmt::Display>(value: T) -> T {
        value
    }
}
