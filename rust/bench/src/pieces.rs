//! The archive's next piece of a read of the whole chunk, the check that it makes first, and all
//! pieces one by one.

use ezumokarin::sys::{ezk_check, ezk_next_piece};

pub use ezumokarin::sys::ezk_next as Next;

use crate::record::{CHUNK, PIECE};

/// The chunk's.
pub const INDEX: u32 = 7;

// Safe because a slice is a pointer and a length that are good for the whole call.
#[inline]
pub fn next_piece(list: &[u8], block_size: u32, at: u32) -> Next {
    let (l, n, chunk) = (list.as_ptr(), list.len(), CHUNK.into());
    let (index, block) = (INDEX.into(), block_size.into());
    unsafe { ezk_next_piece(l, n, index, chunk, block, 0, chunk, at.into()) }
}

/// How many records an accepted list has.
#[inline]
pub fn check(list: &[u8]) -> Option<u64> {
    let answer = unsafe { ezk_check(list.as_ptr(), list.len()) };
    (answer.refusal == 0).then_some(answer.count)
}

/// Calls from place 0 on until the read is finished: how many pieces came.
#[inline]
pub fn one_by_one(list: &[u8], block_size: u32, mut visit: impl FnMut(&Next)) -> Option<usize> {
    let (mut at, mut pieces) = (0, 0);
    loop {
        let piece = next_piece(list, block_size, at);
        if piece.refusal != 0 {
            return None;
        }
        if piece.finished != 0 {
            return Some(pieces);
        }
        visit(&piece);
        at = piece.next as u32;
        pieces += 1;
    }
}

/// A piece as it stands in a plan.
pub fn bytes(piece: &Next) -> [u8; PIECE] {
    let four = |number: u64| (number as u32).to_be_bytes();
    let mut out = [0; PIECE];
    out[0..2].copy_from_slice(&(piece.mark as u16).to_be_bytes());
    out[2..6].copy_from_slice(&four(piece.index));
    out[6..10].copy_from_slice(&four(piece.at));
    out[10..18].copy_from_slice(&piece.id.to_be_bytes());
    out[18..22].copy_from_slice(&four(piece.block));
    out[22..26].copy_from_slice(&four(piece.block_len));
    out[26..30].copy_from_slice(&four(piece.in_block));
    out[30..34].copy_from_slice(&four(piece.len));
    out
}
