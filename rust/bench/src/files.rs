//! The archive's plan across the chunks of a file, and the plans of the same chunks one by one.

pub mod judge;
pub mod pieces;

use ezumokarin::sys::ezk_file_plan;

use crate::library::read_plan;
use crate::record::{CHUNK, PIECE};
use crate::yard::most_pieces;

/// The most lists that a plan takes.
pub const LISTS: usize = 16;
const FIRST: u32 = 7;

/// The lists of some chunks, all of one length, that end with the file.
pub struct File {
    lists: Vec<u8>,
    lengths: Vec<u64>,
    /// Bytes of its plan.
    pub fits: usize,
}

impl File {
    pub fn new(lists: &[Vec<u8>]) -> File {
        let lengths = lists.iter().map(|list| list.len() as u64).collect();
        File { lists: lists.concat(), lengths, fits: 0 }
    }

    /// A buffer with room for the most pieces that a plan can have.
    pub fn buffer(records: usize, block_size: u32) -> Vec<u8> {
        vec![0xaa; LISTS * most_pieces(records, block_size) * PIECE]
    }

    /// The plan of all chunks. Safe because a slice is a pointer and a length that are good for the
    /// whole call.
    #[inline]
    pub fn plan(&self, block_size: u32, out: &mut [u8]) -> Option<usize> {
        let (l, n) = (self.lists.as_ptr(), self.lists.len());
        let (c, k) = (self.lengths.as_ptr(), self.lengths.len());
        let (o, m) = (out.as_mut_ptr(), out.len());
        let (first, count) = (u64::from(FIRST), k as u64 * u64::from(CHUNK));
        let end = first * u64::from(CHUNK) + count;
        let block = block_size.into();
        let answer = unsafe { ezk_file_plan(l, n, c, k, first, end, block, 0, count, o, m) };
        (answer.refusal == 0).then_some(answer.count as usize)
    }

    /// The plans of the chunks, one call each, one behind the other.
    #[inline]
    pub fn plans(&self, block_size: u32, out: &mut [u8]) -> Option<usize> {
        let mut at = 0;
        for (index, list) in (FIRST..).zip(self.singles()) {
            at += read_plan(list, index, block_size, &mut out[at..])?;
        }
        Some(at)
    }

    /// The lists, one by one.
    #[inline]
    fn singles(&self) -> impl Iterator<Item = &[u8]> {
        self.lists.chunks_exact(self.lengths[0] as usize)
    }
}

/// Single plans as one: the places of each are moved behind the chunks before it.
pub fn moved(plans: &mut [u8]) {
    for piece in plans.as_chunks_mut::<PIECE>().0 {
        let four = |at: usize| [piece[at], piece[at + 1], piece[at + 2], piece[at + 3]];
        let (index, place) = (u32::from_be_bytes(four(2)), u32::from_be_bytes(four(6)));
        piece[6..10].copy_from_slice(&(place + (index - FIRST) * CHUNK).to_be_bytes());
    }
}
