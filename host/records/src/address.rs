//! Addresses, 27 bytes each in a record.

/// Where a message goes to or comes from; equal when the kind and every number are.
#[derive(Debug, Clone, Copy, PartialEq, Eq)]
pub enum Address {
    /// IPv4.
    V4 { address: [u8; 4], port: u16 },
    /// IPv6.
    V6 { address: [u8; 16], port: u16, flow: u32, scope: u32 },
}

impl Address {
    /// How many bytes an address takes in a record.
    pub const LENGTH: usize = 27;

    /// The address in these bytes; none for an unknown code or a filler that isn't zero.
    pub fn decode(bytes: &[u8; Address::LENGTH]) -> Option<Address> {
        let port = u16::from_be_bytes([bytes[1], bytes[2]]);
        match bytes[0] {
            4 if bytes[7..].iter().all(|&filler| filler == 0) => Some(Address::V4 { address: part(bytes, 3), port }),
            6 => Some(Address::V6 {
                address: part(bytes, 3),
                port,
                flow: u32::from_be_bytes(part(bytes, 19)),
                scope: u32::from_be_bytes(part(bytes, 23)),
            }),
            _ => None,
        }
    }

    /// Its bytes in a record.
    pub fn encode(&self) -> [u8; Address::LENGTH] {
        let mut bytes = [0; Address::LENGTH];
        let (kind, port) = match *self {
            Address::V4 { address, port } => {
                bytes[3..7].copy_from_slice(&address);
                (4, port)
            }
            Address::V6 { address, port, flow, scope } => {
                bytes[3..19].copy_from_slice(&address);
                bytes[19..23].copy_from_slice(&flow.to_be_bytes());
                bytes[23..].copy_from_slice(&scope.to_be_bytes());
                (6, port)
            }
        };
        bytes[0] = kind;
        bytes[1..3].copy_from_slice(&port.to_be_bytes());
        bytes
    }
}

/// The `N` bytes from this place on.
fn part<const N: usize>(bytes: &[u8; Address::LENGTH], at: usize) -> [u8; N] {
    *bytes[at..].first_chunk().expect("the fields lie within an address")
}
