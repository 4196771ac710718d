//! A session value, and its 513 bytes at the library's boundary.

use super::header::{HEADER, HEADER_LENGTH};

/// Idle or begun, then two headers.
pub const SESSION_LENGTH: usize = 1 + 2 * HEADER_LENGTH;
pub type SessionBytes = [u8; SESSION_LENGTH];
pub type HeaderBytes = [u8; HEADER_LENGTH];

/// Where the two headers are.
pub const FIRST: std::ops::Range<usize> = 1..1 + HEADER_LENGTH;
pub const SECOND: std::ops::Range<usize> = 1 + HEADER_LENGTH..SESSION_LENGTH;

#[derive(Clone, Debug, PartialEq, Eq)]
#[allow(clippy::large_enum_variant)] // a session value is passed by reference everywhere
pub enum Session {
    /// Remembers the header bytes before and after the last commit. All zero is nothing remembered: no image that opens
    /// has such a header.
    Idle { former: HeaderBytes, latter: HeaderBytes },
    /// Remembers the header bytes that begin saw.
    Begun(HeaderBytes),
}

impl Session {
    /// Idle with nothing remembered.
    pub const FRESH: Session = Session::Idle { former: [0; HEADER_LENGTH], latter: [0; HEADER_LENGTH] };

    pub fn begun(image: &[u8]) -> Session {
        Session::Begun(header_bytes(image))
    }

    pub fn is_begun(&self) -> bool {
        matches!(self, Session::Begun(_))
    }

    /// Byte 0 is 0 for idle, anything else for begun. Of a begun session the second header is not looked at.
    pub fn from_bytes(bytes: &SessionBytes) -> Session {
        let [former, latter] = [FIRST, SECOND].map(|place| bytes[place].try_into().expect("a header's length"));
        if bytes[0] == 0 {
            Session::Idle { former, latter }
        } else {
            Session::Begun(former)
        }
    }

    pub fn to_bytes(&self) -> SessionBytes {
        let (first, former, latter) = match self {
            Session::Idle { former, latter } => (0, former, latter),
            Session::Begun(remembered) => (1, remembered, &[0; HEADER_LENGTH]),
        };
        let mut bytes = [first; SESSION_LENGTH];
        bytes[FIRST].copy_from_slice(former);
        bytes[SECOND].copy_from_slice(latter);
        bytes
    }
}

pub fn header_bytes(image: &[u8]) -> HeaderBytes {
    let mut bytes = [0; HEADER_LENGTH];
    bytes.copy_from_slice(&image[HEADER..HEADER + HEADER_LENGTH]);
    bytes
}
