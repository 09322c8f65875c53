//! What a careful program keeps between calls, so that none of them allocates.

use crate::record::{CHUNK, LIST_RECORDS, PIECE};
use crate::yard::sizes::Sizes;
use crate::yard::sweep::Spans;
use crate::yard::tree::Tree;

/// The longest plan: each of 2n + 1 segments ends within a block at both sides, at worst.
pub const fn most_pieces(records: usize, block_size: u32) -> usize {
    2 * (2 * records + 1) + (CHUNK / block_size) as usize
}

/// The smallest block size.
const SMALLEST: u32 = 65_536;

pub struct Room {
    pub spans: Spans,
    pub sizes: Sizes,
    pub tree: Tree,
    /// For an answer whose length must be known before a byte of it may be written.
    pub aside: Vec<u8>,
}

impl Room {
    pub fn new() -> Box<Room> {
        Box::new(Room {
            spans: Spans::new(),
            sizes: Sizes::new(),
            tree: Tree::new(),
            aside: vec![0; most_pieces(LIST_RECORDS, SMALLEST) * PIECE],
        })
    }
}

/// Calls `write` with a buffer that has room for `most` bytes: the lent one, or ours where that
/// may be too short. A lent buffer that is too short for the answer isn't touched.
#[inline(always)]
pub fn written(
    out: &mut [u8],
    aside: &mut [u8],
    most: usize,
    write: impl FnOnce(&mut [u8]) -> usize,
) -> Option<usize> {
    if most <= out.len() {
        return Some(write(out));
    }
    let count = write(aside);
    out.get_mut(..count)?.copy_from_slice(&aside[..count]);
    Some(count)
}
