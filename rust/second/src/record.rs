//! A slice record and its 24 bytes.

use crate::limits::RECORD;

/// All fields are wide, so that sums of them are sums of mathematics.
#[derive(Clone, Copy, Debug, PartialEq, Eq)]
pub struct Record {
    pub pos: u64,
    pub id: u64,
    pub size: u64,
    pub off: u64,
    pub len: u64,
}

impl Record {
    pub fn new(pos: u64, id: u64, size: u64, off: u64, len: u64) -> Record {
        Record { pos, id, size, off, len }
    }

    /// The first position behind the record.
    pub fn end(&self) -> u64 {
        self.pos + self.len
    }

    pub fn covers(&self, position: u64) -> bool {
        self.pos <= position && position < self.end()
    }

    pub fn from_bytes(bytes: &[u8]) -> Record {
        Record {
            pos: big_endian(&bytes[0..4]),
            id: big_endian(&bytes[4..12]),
            size: big_endian(&bytes[12..16]),
            off: big_endian(&bytes[16..20]),
            len: big_endian(&bytes[20..24]),
        }
    }

    pub fn to_bytes(&self) -> [u8; RECORD] {
        let mut bytes = [0; RECORD];
        bytes[0..4].copy_from_slice(&four(self.pos));
        bytes[4..12].copy_from_slice(&self.id.to_be_bytes());
        bytes[12..16].copy_from_slice(&four(self.size));
        bytes[16..20].copy_from_slice(&four(self.off));
        bytes[20..24].copy_from_slice(&four(self.len));
        bytes
    }
}

/// The number that these bytes are, the first being the highest.
pub fn big_endian(bytes: &[u8]) -> u64 {
    bytes.iter().fold(0, |number, byte| number * 256 + u64::from(*byte))
}

/// A number in four bytes; one that doesn't fit is a mistake of ours.
pub fn four(number: u64) -> [u8; 4] {
    u32::try_from(number).expect("a number of four bytes").to_be_bytes()
}
