//! Iterators over the pieces of a read, which keep the place between two calls.
#![allow(clippy::too_many_arguments)] // as in the C interface

use std::iter::FusedIterator;

use crate::{next_file_piece, next_piece, ListRefusal, Next, Piece, Refusal};

/// The pieces of a read of one chunk, each asked for when it is wanted. [`read_pieces`] makes it.
///
/// It ends once the read is finished, or behind a refusal.
#[derive(Clone, Debug)]
#[must_use = "pieces are asked for one by one"]
pub struct ReadPieces<'a> {
    list: &'a [u8],
    index: u64,
    chunk_len: u64,
    block_size: u64,
    start: u64,
    count: u64,
    walk: Walk,
}

/// The pieces of a read across the chunks of a file, each asked for when it is wanted.
/// [`file_pieces`] makes it.
///
/// It ends once the read is finished, or behind a refusal.
#[derive(Clone, Debug)]
#[must_use = "pieces are asked for one by one"]
pub struct FilePieces<'a> {
    lists: &'a [u8],
    lengths: &'a [u64],
    first_index: u64,
    file_len: u64,
    block_size: u64,
    start: u64,
    count: u64,
    walk: Walk,
}

/// The pieces of [`read_plan`](crate::read_plan()), one by one, without room for the whole plan.
/// Each is a call of [`next_piece`], which tells what may be refused.
///
/// [`place`](ReadPieces::place) is a value to keep, and [`at`](ReadPieces::at) goes on from it:
///
/// ```
/// use ezumokarin::{read_pieces, Location, Record};
/// let slice = Record { pos: 10, id: 3, size: 100_000, off: 0, len: 100_000 };
/// let list = slice.to_bytes();
/// let read = || read_pieces(&list, 7, 200_000, 65_536, 0, 100_000);
///
/// let mut pieces = read();
/// let zeros = pieces.next().expect("a piece")?;
/// assert_eq!((zeros.place, zeros.from, zeros.len), (0, Location::Zeros, 10));
/// let kept = pieces.place();
/// assert_eq!(kept, 10);
///
/// // Later, from the same list.
/// let mut handed_out = kept;
/// for piece in read().at(kept) {
///     let piece = piece?;
///     assert_eq!(u64::from(piece.place), handed_out);
///     handed_out += u64::from(piece.len);
/// }
/// assert_eq!(handed_out, 100_000);
/// # Ok::<(), ezumokarin::Refusal>(())
/// ```
pub fn read_pieces(
    list: &[u8],
    index: u64,
    chunk_len: u64,
    block_size: u64,
    start: u64,
    count: u64,
) -> ReadPieces<'_> {
    let walk = Walk::from(0);
    ReadPieces { list, index, chunk_len, block_size, start, count, walk }
}

/// The pieces of [`file_plan`](crate::file_plan()), one by one, without room for the whole plan.
/// Each is a call of [`next_file_piece`], which tells what may be refused.
///
/// [`place`](FilePieces::place) is a value to keep, and [`at`](FilePieces::at) goes on from it:
///
/// ```
/// use ezumokarin::{file_pieces, CHUNK};
/// // Three chunks in which nothing was written: a piece of zeros each.
/// let read = || file_pieces(&[], &[0; 3], 5, u64::MAX, 65_536, 0, u64::MAX);
/// let chunks: Result<Vec<u32>, _> = read().map(|piece| piece.map(|piece| piece.index)).collect();
/// assert_eq!(chunks?, [5, 6, 7]);
///
/// let mut rest = read().at(2 * CHUNK + 4);
/// let piece = rest.next().expect("a piece")?;
/// assert_eq!((piece.index, u64::from(piece.len)), (7, CHUNK - 4));
/// assert_eq!((rest.next(), rest.place()), (None, 3 * CHUNK));
/// # Ok::<(), ezumokarin::ListRefusal>(())
/// ```
pub fn file_pieces<'a>(
    lists: &'a [u8],
    lengths: &'a [u64],
    first_index: u64,
    file_len: u64,
    block_size: u64,
    start: u64,
    count: u64,
) -> FilePieces<'a> {
    let walk = Walk::from(0);
    FilePieces { lists, lengths, first_index, file_len, block_size, start, count, walk }
}

/// The place kept, and whether there is nothing more to ask for.
#[derive(Clone, Debug)]
struct Walk {
    place: u64,
    ended: bool,
}

impl Walk {
    fn from(place: u64) -> Walk {
        Walk { place, ended: false }
    }

    /// Goes on by one piece; a refusal leaves the place as it was.
    fn step<E>(
        &mut self,
        ask: impl FnOnce(u64) -> Result<Option<Next>, E>,
    ) -> Option<Result<Piece, E>> {
        if self.ended {
            return None;
        }
        let answer = ask(self.place).transpose();
        match &answer {
            Some(Ok(next)) => self.place = next.next,
            Some(Err(_)) | None => self.ended = true,
        }
        answer.map(|answer| answer.map(|next| next.piece))
    }
}

/// What both have beside their own inputs.
macro_rules! walked {
    ($pieces:ident) => {
        impl $pieces<'_> {
            /// The same read from a place on, which may be any number.
            pub fn at(mut self, place: u64) -> Self {
                self.walk = Walk::from(place);
                self
            }

            /// The place: how many bytes of the read are handed out.
            pub fn place(&self) -> u64 {
                self.walk.place
            }
        }

        impl FusedIterator for $pieces<'_> {}
    };
}

walked!(ReadPieces);
walked!(FilePieces);

impl Iterator for ReadPieces<'_> {
    type Item = Result<Piece, Refusal>;

    fn next(&mut self) -> Option<Self::Item> {
        let ReadPieces { list, index, chunk_len, block_size, start, count, .. } = *self;
        let ask = |at| next_piece(list, index, chunk_len, block_size, start, count, at);
        self.walk.step(ask)
    }
}

impl Iterator for FilePieces<'_> {
    type Item = Result<Piece, ListRefusal>;

    fn next(&mut self) -> Option<Self::Item> {
        let FilePieces { lists, lengths, first_index, file_len, block_size, start, count, .. } =
            *self;
        let ask = |at| {
            next_file_piece(lists, lengths, first_index, file_len, block_size, start, count, at)
        };
        self.walk.step(ask)
    }
}
