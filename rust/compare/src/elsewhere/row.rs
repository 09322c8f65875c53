//! The bytes of a piece, and where its numbers stand in them.

use second::limits::PIECE;

pub type Row = [u8; PIECE];

pub const INDEX: usize = 2;
pub const PLACE: usize = 6;
pub const ID: usize = 10;
pub const BLOCK: usize = 18;
pub const LENGTH: usize = 22;
pub const AT: usize = 26;
pub const LEN: usize = 30;

/// The numbers that are 0 in an `RZ`.
pub const OBJECT: std::ops::Range<usize> = ID..LEN;

/// The pieces of a plan of whole ones.
pub fn rows(plan: &[u8]) -> Vec<Row> {
    plan.chunks_exact(PIECE).map(|bytes| bytes.try_into().expect("a piece")).collect()
}

pub fn zeros(index: u32, read: u64) -> Row {
    let mut row = [0; PIECE];
    row[..2].copy_from_slice(b"RZ");
    set(&mut row, INDEX, index);
    set(&mut row, LEN, read.min(100) as u32);
    row
}

pub fn is_zeros(row: &Row) -> bool {
    row.starts_with(b"RZ")
}

/// The number of four bytes that stands here.
pub fn get(row: &Row, at: usize) -> u32 {
    u32::from_be_bytes(row[at..at + 4].try_into().expect("four bytes"))
}

pub fn set(row: &mut Row, at: usize, number: u32) {
    row[at..at + 4].copy_from_slice(&number.to_be_bytes());
}

pub fn add(row: &mut Row, at: usize, more: u32) {
    set(row, at, get(row, at).wrapping_add(more));
}

/// Drops its first bytes: an object's place goes on with them.
pub fn skip(row: &mut Row, bytes: u32) {
    add(row, PLACE, bytes);
    add(row, LEN, bytes.wrapping_neg());
    if !is_zeros(row) {
        add(row, AT, bytes);
    }
}
