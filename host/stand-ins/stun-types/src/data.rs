//! Bytes that are borrowed or owned.

use alloc::vec::Vec;

/// The bytes of a transmission.
#[derive(Debug, Clone)]
pub enum Data<'a> {
    /// A part of somebody else's bytes.
    Borrowed(&'a [u8]),
    /// Bytes of its own.
    Owned(Vec<u8>),
}

impl Data<'_> {
    /// The same bytes without a borrow.
    pub fn into_owned<'b>(self) -> Data<'b> {
        Data::Owned(self.as_ref().to_vec())
    }
}

impl AsRef<[u8]> for Data<'_> {
    fn as_ref(&self) -> &[u8] {
        match self {
            Data::Borrowed(bytes) => bytes,
            Data::Owned(bytes) => bytes,
        }
    }
}

impl<'a> From<&'a [u8]> for Data<'a> {
    fn from(bytes: &'a [u8]) -> Self {
        Data::Borrowed(bytes)
    }
}
