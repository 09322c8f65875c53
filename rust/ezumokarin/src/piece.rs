//! Pieces of a plan and their 34 bytes.

use crate::record::four;

/// One piece of a plan.
#[derive(Clone, Copy, Debug, PartialEq, Eq, Hash)]
pub struct Piece {
    /// The index of the chunk in its file.
    pub index: u32,
    /// Place from the start of the read.
    pub place: u32,
    /// Where the bytes come from.
    pub from: Location,
    /// How many bytes.
    pub len: u32,
}

/// Where the bytes of a piece come from.
#[derive(Clone, Copy, Debug, PartialEq, Eq, Hash)]
pub enum Location {
    /// Mark `RZ`: the bytes are 0.
    Zeros,
    /// Mark `RB`: consecutive bytes of one object.
    Object {
        /// The slice.
        id: u64,
        /// The number of the block in its slice.
        block: u32,
        /// The block length, as in the object's name.
        length: u32,
        /// Place of the first byte in the block.
        at: u32,
    },
}

impl Piece {
    /// Bytes of a piece.
    pub const LEN: usize = 34;

    fn from_bytes(bytes: &[u8]) -> Piece {
        let from = match &bytes[..2] {
            b"RZ" => Location::Zeros,
            b"RB" => Location::Object {
                id: u64::from(four(bytes, 10)) << 32 | u64::from(four(bytes, 14)),
                block: four(bytes, 18),
                length: four(bytes, 22),
                at: four(bytes, 26),
            },
            mark => panic!("no mark of a piece: {mark:?}"),
        };
        Piece { index: four(bytes, 2), place: four(bytes, 6), from, len: four(bytes, 30) }
    }
}

/// The pieces in the bytes that a call wrote.
///
/// # Panics
/// If the bytes are no plan.
pub fn pieces(bytes: &[u8]) -> impl Iterator<Item = Piece> + '_ {
    assert!(bytes.len().is_multiple_of(Piece::LEN), "no whole number of pieces");
    bytes.chunks_exact(Piece::LEN).map(Piece::from_bytes)
}
