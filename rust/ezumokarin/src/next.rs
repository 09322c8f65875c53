//! Pieces of a plan one at a time, for a caller who has no room for it all.
#![allow(clippy::too_many_arguments)] // as in the C interface

use crate::files::lists_passed;
use crate::refusal::passed;
use crate::{sys, ListRefusal, Location, Piece, Refusal};

/// The piece that comes next, and the place behind it.
#[derive(Clone, Copy, Debug, PartialEq, Eq, Hash)]
pub struct Next {
    /// The piece, from the place that was given on.
    pub piece: Piece,
    /// The place to pass next: how many bytes of the read are handed out with this piece.
    pub next: u64,
}

/// Gives the plan of [`read_plan`](crate::read_plan()) piece by piece. `at` is the place, a value
/// that the caller keeps: how many bytes of the read are already handed out, 0 at first. The answer
/// is none once the read is finished. With the other inputs unchanged, the pieces from place 0 on
/// are those of the whole plan, in order. [`read_pieces`](crate::read_pieces()) keeps the place
/// itself.
///
/// Any number is a place. One inside a piece gives the rest of it; one at or past the end of the
/// read is finished. The list is checked at each call, so that it may be refused where nothing is
/// left, too. Refusals: 7, 21, 8, 1 to 6, 16.
///
/// ```
/// use ezumokarin::{next_piece, Location, Next, Piece, Record};
/// let slice = Record { pos: 0, id: 3, size: 100_000, off: 0, len: 100_000 };
/// let at = |place| next_piece(&slice.to_bytes(), 7, 100_001, 65_536, 65_000, u64::MAX, place);
///
/// let from = Location::Object { id: 3, block: 0, length: 65_536, at: 65_000 };
/// let first = Piece { index: 7, place: 0, from, len: 536 };
/// assert_eq!(at(0)?, Some(Next { piece: first, next: 536 }));
/// let from = Location::Object { id: 3, block: 1, length: 34_464, at: 0 };
/// let second = Piece { index: 7, place: 536, from, len: 34_464 };
/// assert_eq!(at(536)?, Some(Next { piece: second, next: 35_000 }));
/// let third = Piece { index: 7, place: 35_000, from: Location::Zeros, len: 1 };
/// assert_eq!(at(35_000)?, Some(Next { piece: third, next: 35_001 }));
/// assert_eq!(at(35_001)?, None);
///
/// // The rest of the first piece.
/// let from = Location::Object { id: 3, block: 0, length: 65_536, at: 65_500 };
/// let rest = Piece { index: 7, place: 500, from, len: 36 };
/// assert_eq!(at(500)?, Some(Next { piece: rest, next: 536 }));
/// # Ok::<(), ezumokarin::Refusal>(())
/// ```
pub fn next_piece(
    list: &[u8],
    index: u64,
    chunk_len: u64,
    block_size: u64,
    start: u64,
    count: u64,
    at: u64,
) -> Result<Option<Next>, Refusal> {
    let answer = sys::next_piece(list, index, chunk_len, block_size, start, count, at);
    passed(answer.refusal, answer.place)?;
    Ok(handed_out(&answer))
}

/// The same for a read across the chunks of a file: gives the plan of
/// [`file_plan`](crate::file_plan()) piece by piece. `at` is the place in the whole read, through
/// all chunks. All lists are checked at each call, also those that the piece doesn't touch, and the
/// first refused one is told. [`file_pieces`](crate::file_pieces()) keeps the place itself.
/// Refusals: 21, 8, then list by list 1 to 6, 16.
///
/// ```
/// use ezumokarin::{next_file_piece, Location, Next, Piece, CHUNK};
/// // The last 10 bytes of chunk 5, and the first 20 of chunk 6; nothing was written there.
/// let at = |place| next_file_piece(&[], &[0, 0], 5, u64::MAX, 65_536, CHUNK - 10, 30, place);
/// let before = Piece { index: 5, place: 0, from: Location::Zeros, len: 10 };
/// assert_eq!(at(0)?, Some(Next { piece: before, next: 10 }));
/// let behind = Piece { index: 6, place: 10, from: Location::Zeros, len: 20 };
/// assert_eq!(at(10)?, Some(Next { piece: behind, next: 30 }));
/// assert_eq!(at(30)?, None);
/// # Ok::<(), ezumokarin::ListRefusal>(())
/// ```
pub fn next_file_piece(
    lists: &[u8],
    lengths: &[u64],
    first_index: u64,
    file_len: u64,
    block_size: u64,
    start: u64,
    count: u64,
    at: u64,
) -> Result<Option<Next>, ListRefusal> {
    let answer =
        sys::next_file_piece(lists, lengths, first_index, file_len, block_size, start, count, at);
    lists_passed(answer.refusal, answer.place, answer.list_index)?;
    Ok(handed_out(&of_one_list(&answer)))
}

/// The fields that both answers have.
fn of_one_list(answer: &sys::ezk_file_next) -> sys::ezk_next {
    sys::ezk_next {
        refusal: answer.refusal,
        place: answer.place,
        finished: answer.finished,
        next: answer.next,
        mark: answer.mark,
        index: answer.index,
        at: answer.at,
        id: answer.id,
        block: answer.block,
        block_len: answer.block_len,
        in_block: answer.in_block,
        len: answer.len,
    }
}

/// All numbers of a piece but the id have four bytes in a plan.
fn handed_out(answer: &sys::ezk_next) -> Option<Next> {
    if answer.finished == 1 {
        return None;
    }
    let from = match answer.mark {
        0x525a => Location::Zeros,
        0x5242 => Location::Object {
            id: answer.id,
            block: answer.block as u32,
            length: answer.block_len as u32,
            at: answer.in_block as u32,
        },
        mark => panic!("no mark of a piece: {mark:x}"),
    };
    let (index, place, len) = (answer.index as u32, answer.at as u32, answer.len as u32);
    Some(Next { piece: Piece { index, place, from, len }, next: answer.next })
}
