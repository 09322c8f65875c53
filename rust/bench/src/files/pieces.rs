//! The next piece of a read across the chunks of a file, and the same by calls on single lists.

use ezumokarin::sys::{self, ezk_file_next};

use super::{File, FIRST};
use crate::pieces::{check, next_piece, Next};
use crate::record::CHUNK;

impl File {
    #[inline]
    pub fn next_piece(&self, block_size: u32, at: u32) -> ezk_file_next {
        let (first, block) = (u64::from(FIRST), block_size.into());
        let count = self.lengths.len() as u64 * u64::from(CHUNK);
        let end = first * u64::from(CHUNK) + count;
        sys::next_file_piece(&self.lists, &self.lengths, first, end, block, 0, count, at.into())
    }

    /// The piece of the chunk that the place is in, and how many records the other lists have.
    #[inline]
    pub fn next_of_one(&self, block_size: u32, at: u32) -> Option<(Next, u64)> {
        let mut piece = Next::default();
        let mut records = 0;
        for (k, list) in self.singles().enumerate() {
            if k as u32 == at / CHUNK {
                piece = next_piece(list, block_size, at % CHUNK);
            } else {
                records += check(list)?;
            }
        }
        (piece.refusal == 0).then_some((piece, records))
    }

    /// How many records the lists have, by one check each.
    #[inline]
    pub fn checks(&self) -> Option<u64> {
        self.singles().map(check).sum()
    }
}

/// Whether the file's piece is that of its chunk, moved behind the chunks before it.
pub fn alike(of_file: &ezk_file_next, of_chunk: &Next, chunk: u32) -> bool {
    let moved = |place: u64| place + u64::from(chunk) * u64::from(CHUNK);
    let f = of_file;
    let piece = Next {
        refusal: f.refusal,
        place: f.place,
        finished: f.finished,
        next: f.next,
        mark: f.mark,
        index: f.index,
        at: f.at,
        id: f.id,
        block: f.block,
        block_len: f.block_len,
        in_block: f.in_block,
        len: f.len,
    };
    let (at, next) = (moved(of_chunk.at), moved(of_chunk.next));
    piece == Next { index: u64::from(FIRST + chunk), at, next, ..*of_chunk }
}
