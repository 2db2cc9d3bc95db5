//! Attribute types (RFC 8489, sections 14 and 18.3).

/// The 16-bit number that says what an attribute is.
#[derive(Debug, Clone, Copy, PartialEq, Eq)]
pub struct AttributeType(pub u16);

/// MESSAGE-INTEGRITY (section 14.5).
#[derive(Debug)]
pub struct MessageIntegrity;

impl MessageIntegrity {
    /// Its type.
    pub const TYPE: AttributeType = AttributeType(0x0008);
}

/// MESSAGE-INTEGRITY-SHA256 (section 14.6).
#[derive(Debug)]
pub struct MessageIntegritySha256;

impl MessageIntegritySha256 {
    /// Its type.
    pub const TYPE: AttributeType = AttributeType(0x001C);
}

/// One attribute as it stands in a message; only its type is asked for.
#[derive(Debug, Clone, Copy)]
pub struct RawAttribute {
    kind: AttributeType,
}

impl RawAttribute {
    /// An attribute of this type.
    pub fn new(kind: AttributeType) -> Self {
        RawAttribute { kind }
    }

    /// The attribute's type.
    pub fn get_type(&self) -> AttributeType {
        self.kind
    }
}
