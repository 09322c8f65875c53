//! Reads across the chunks of a file.
#![allow(clippy::too_many_arguments)] // as in the C interface

use std::error::Error;
use std::fmt;

use crate::refusal::passed;
use crate::{sys, Refusal};

/// A refusal of [`file_plan`], of [`next_file_piece`](crate::next_file_piece()) or of
/// [`judge_plan`](crate::judge_plan()), and which list is at fault.
#[derive(Clone, Copy, Debug, PartialEq, Eq, Hash)]
pub struct ListRefusal {
    /// Why there is no answer; its place is counted in the refused list.
    pub refusal: Refusal,
    /// The chunk index of the refused list, for refusals 1 to 6 and 16; none where no list is at fault.
    pub index: Option<u64>,
}

/// Writes the plan of a read across the chunks of a file, and returns its length in bytes. `lists`
/// are the lists of the chunks from `first_index` on, one behind the other, and `lengths` their
/// lengths in bytes; there are 1 to 16. `start` counts from the first of these chunks, not from the
/// file's beginning; the read is cut to the file's end, at `file_len`, and to that of the last
/// list's chunk. No piece crosses the edge of a chunk, and places count from the start of the read.
///
/// [`file_pieces`](crate::file_pieces()) gives the plan piece by piece, without room for it all, and
/// [`judge_plan`](crate::judge_plan()) judges one that was made elsewhere.
///
/// A plan has at most 4 x records + 2 x lists + bytes of the read / block size pieces, where records
/// are those of all lists. With room for so many, of [`Piece::LEN`](crate::Piece::LEN) bytes each,
/// it is written at once.
///
/// All lists are checked, also those that the read doesn't touch, and the first refused one is told.
/// Refusals: 21, 8, then list by list 1 to 6, 16; 12.
///
/// ```
/// use ezumokarin::{file_plan, pieces, Location, Piece, Record, Refusal, CHUNK};
/// // The last 10 bytes of chunk 5, and 20 bytes of chunk 6.
/// let before = Record { pos: CHUNK as u32 - 10, id: 7, size: 10, off: 0, len: 10 };
/// let behind = Record { pos: 0, id: 8, size: 20, off: 0, len: 20 };
/// let lists = [before.to_bytes(), behind.to_bytes()].concat();
/// let file_len = 6 * CHUNK + 100;
///
/// let mut out = [0; 3 * Piece::LEN];
/// let count = file_plan(&lists, &[24, 24], 5, file_len, 65_536, CHUNK - 4, 30, &mut out)?;
/// let plan: Vec<Piece> = pieces(&out[..count]).collect();
/// let first = Location::Object { id: 7, block: 0, length: 10, at: 6 };
/// let second = Location::Object { id: 8, block: 0, length: 20, at: 0 };
/// assert_eq!(plan[0], Piece { index: 5, place: 0, from: first, len: 4 });
/// assert_eq!(plan[1], Piece { index: 6, place: 4, from: second, len: 20 });
/// assert_eq!(plan[2], Piece { index: 6, place: 24, from: Location::Zeros, len: 6 });
///
/// // Two lists of one record and a half, and of half a record.
/// let refused = file_plan(&lists, &[36, 12], 5, file_len, 65_536, 0, 30, &mut out).unwrap_err();
/// assert_eq!((refused.refusal, refused.index), (Refusal::ListLength, Some(5)));
/// assert_eq!(refused.to_string(), "list of chunk 5: list length is no multiple of 24");
/// # Ok::<(), ezumokarin::ListRefusal>(())
/// ```
pub fn file_plan(
    lists: &[u8],
    lengths: &[u64],
    first_index: u64,
    file_len: u64,
    block_size: u64,
    start: u64,
    count: u64,
    out: &mut [u8],
) -> Result<usize, ListRefusal> {
    let answer =
        sys::file_plan(lists, lengths, first_index, file_len, block_size, start, count, out);
    lists_passed(answer.refusal, answer.place, answer.index)?;
    Ok(answer.count as usize)
}

/// `Ok` for number 0, else the refusal of that number, with the index where it speaks of a list.
pub(crate) fn lists_passed(number: u64, place: u64, index: u64) -> Result<(), ListRefusal> {
    passed(number, place).map_err(|refusal| {
        let index = refusal.is_of_list().then_some(index);
        ListRefusal { refusal, index }
    })
}

impl fmt::Display for ListRefusal {
    fn fmt(&self, f: &mut fmt::Formatter<'_>) -> fmt::Result {
        if let Some(index) = self.index {
            write!(f, "list of chunk {index}: ")?;
        }
        self.refusal.fmt(f)
    }
}

impl Error for ListRefusal {}
