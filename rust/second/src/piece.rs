//! A piece of a plan and its 34 bytes.

use crate::limits::PIECE;
use crate::record::{big_endian, four};
use crate::Location;

/// `index` is that of the chunk; `place` counts from the start of the read.
#[derive(Clone, Copy, Debug, PartialEq, Eq)]
pub struct Piece {
    pub index: u64,
    pub place: u64,
    pub from: Location,
    pub len: u64,
}

impl Piece {
    pub fn to_bytes(&self) -> [u8; PIECE] {
        let (mark, id, block, length, at) = match self.from {
            Location::Zeros => (b"RZ", 0, 0, 0, 0),
            Location::Object { id, block, length, at } => (b"RB", id, block, length, at),
        };
        let mut bytes = [0; PIECE];
        bytes[0..2].copy_from_slice(mark);
        bytes[2..6].copy_from_slice(&four(self.index));
        bytes[6..10].copy_from_slice(&four(self.place));
        bytes[10..18].copy_from_slice(&id.to_be_bytes());
        bytes[18..22].copy_from_slice(&four(block));
        bytes[22..26].copy_from_slice(&four(length));
        bytes[26..30].copy_from_slice(&four(at));
        bytes[30..34].copy_from_slice(&four(self.len));
        bytes
    }

    /// The piece that these bytes of a plan are.
    pub fn from_bytes(bytes: &[u8]) -> Piece {
        let from = match &bytes[0..2] {
            b"RZ" => Location::Zeros,
            b"RB" => Location::Object {
                id: big_endian(&bytes[10..18]),
                block: big_endian(&bytes[18..22]),
                length: big_endian(&bytes[22..26]),
                at: big_endian(&bytes[26..30]),
            },
            mark => panic!("no mark of a piece: {mark:?}"),
        };
        let (index, place) = (big_endian(&bytes[2..6]), big_endian(&bytes[6..10]));
        Piece { index, place, from, len: big_endian(&bytes[30..34]) }
    }
}
