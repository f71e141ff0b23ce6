//! What a function says, as C gets it.

use crate::FILL;

/// "Answers none, which counts as accepted".
const NONE: u64 = 1 << 62;

const REFUSED: u64 = 1 << 63;

const NO_ROOM: u8 = 11;

/// Of a line or arguments that ask for nothing.
pub const BAD_LINE: u8 = 14;

#[derive(Clone, Debug, PartialEq)]
pub struct Said {
    pub number: u64,
    /// What it writes at the start of the lent bytes.
    pub bytes: Vec<u8>,
}

pub fn number(number: u64) -> Said {
    let bytes = Vec::new();
    Said { number, bytes }
}

pub fn none() -> Said {
    number(NONE)
}

/// A message, the number being its length.
pub fn written(bytes: impl Into<Vec<u8>>) -> Said {
    let bytes = bytes.into();
    Said {
        number: bytes.len() as u64,
        bytes,
    }
}

pub fn refused(refusal: u8) -> Said {
    refused_with(refusal, 0)
}

/// With the byte or the place that it carries.
pub fn refused_with(refusal: u8, carried: u64) -> Said {
    number(REFUSED + u64::from(refusal) + 256 * carried)
}

impl Said {
    /// The number, then the lent bytes, of which there are so many.
    pub fn reply(&self, room: usize) -> Vec<u8> {
        if self.bytes.len() > room {
            return refused(NO_ROOM).reply(room);
        }
        let mut reply = self.number.to_le_bytes().to_vec();
        reply.extend(&self.bytes);
        reply.resize(8 + room, FILL);
        reply
    }
}
