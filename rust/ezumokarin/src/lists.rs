//! Calls that take a slice list.

use crate::refusal::passed;
use crate::{sys, Refusal};

/// How many bytes of each answer compaction wrote.
#[derive(Clone, Copy, Debug, PartialEq, Eq, Hash)]
pub struct Compacted {
    /// Bytes of the plan.
    pub plan: usize,
    /// Bytes of the new list.
    pub list: usize,
}

/// How many records an acceptable list has. Refusals: 1 to 6, 16.
///
/// ```
/// use ezumokarin::{check, Refusal};
/// assert_eq!(check(&[0; 24]), Ok(1));
/// assert_eq!(check(&[0; 23]), Err(Refusal::ListLength));
/// ```
///
/// All records of a slice give it one size:
///
/// ```
/// use ezumokarin::{check, Record, Refusal};
/// let first = Record { pos: 0, id: 7, size: 20, off: 0, len: 8 };
/// let again = Record { pos: 8, size: 21, ..first };
/// let list = [first.to_bytes(), again.to_bytes()].concat();
/// assert_eq!(check(&list), Err(Refusal::TwoSizes { place: 1 }));
/// ```
pub fn check(list: &[u8]) -> Result<usize, Refusal> {
    counted(sys::check(list))
}

/// Writes the resolved view of the chunk's first `chunk_len` bytes and returns its length
/// in bytes. A list of n records needs at most 2n + 1 records of room. [`find`](crate::find())
/// seeks in a view. Refusals: 7, 1 to 6, 16, 12.
///
/// ```
/// let mut out = [0; 24];
/// assert_eq!(ezumokarin::view(&[], 5, &mut out), Ok(24));
/// let run = ezumokarin::Record::from_bytes(&out);
/// assert_eq!((run.pos, run.id, run.size, run.off, run.len), (0, 0, 5, 0, 5));
/// ```
///
/// The records of a view are also a list that reads alike up to `chunk_len`, unless they are too
/// many. But what the list left uncovered is zeros there, and hides what it is laid over.
///
/// ```
/// use ezumokarin::{records, view, Record};
/// let slice = Record { pos: 2, id: 7, size: 3, off: 0, len: 3 };
/// let (mut first, mut again) = ([0; 48], [0; 48]);
/// assert_eq!(view(&slice.to_bytes(), 5, &mut first), Ok(48));
/// assert_eq!(view(&first, 5, &mut again), Ok(48));
/// let hole = Record { pos: 0, id: 0, size: 2, off: 0, len: 2 };
/// assert_eq!(records(&first).collect::<Vec<_>>(), [hole, slice]);
/// let zeros = Record { size: 0, ..hole };
/// assert_eq!(records(&again).collect::<Vec<_>>(), [zeros, slice]);
/// ```
pub fn view(list: &[u8], chunk_len: u64, out: &mut [u8]) -> Result<usize, Refusal> {
    counted(sys::view(list, chunk_len, out))
}

/// Writes the tidied list, the view of the whole chunk without its uncovered runs, and
/// returns its length in bytes. Refusals: 1 to 6, 16, 11, 12.
///
/// ```
/// use ezumokarin::{records, tidy, Record};
/// // The second record hides the first.
/// let hidden = Record { pos: 0, id: 7, size: 9, off: 0, len: 9 };
/// let newer = Record { pos: 0, id: 8, size: 9, off: 0, len: 9 };
/// let list = [hidden.to_bytes(), newer.to_bytes()].concat();
/// let mut out = [0; 48];
/// let count = tidy(&list, &mut out)?;
/// assert_eq!(records(&out[..count]).collect::<Vec<_>>(), [newer]);
/// # Ok::<(), ezumokarin::Refusal>(())
/// ```
pub fn tidy(list: &[u8], out: &mut [u8]) -> Result<usize, Refusal> {
    counted(sys::tidy(list, out))
}

/// Writes the plan of a read of `count` bytes from `start`, cut to the chunk length, and
/// returns its length in bytes. Each piece carries `index`, that of the chunk in its file;
/// [`file_plan`](crate::file_plan()) reads across chunks, and
/// [`read_pieces`](crate::read_pieces()) gives the plan piece by piece, without room for it all.
/// Refusals: 7, 21, 8, 1 to 6, 16, 12.
///
/// ```
/// use ezumokarin::{pieces, read_plan, Piece, Location, Record};
/// let slice = Record { pos: 0, id: 3, size: 100_000, off: 0, len: 100_000 };
/// let mut out = [0; 3 * Piece::LEN];
/// let count = read_plan(&slice.to_bytes(), 7, 100_001, 65_536, 65_000, u64::MAX, &mut out)?;
/// let plan: Vec<Piece> = pieces(&out[..count]).collect();
/// let first = Location::Object { id: 3, block: 0, length: 65_536, at: 65_000 };
/// let second = Location::Object { id: 3, block: 1, length: 34_464, at: 0 };
/// assert_eq!(plan[0], Piece { index: 7, place: 0, from: first, len: 536 });
/// assert_eq!(plan[1], Piece { index: 7, place: 536, from: second, len: 34_464 });
/// assert_eq!(plan[2], Piece { index: 7, place: 35_000, from: Location::Zeros, len: 1 });
/// # Ok::<(), ezumokarin::Refusal>(())
/// ```
pub fn read_plan(
    list: &[u8],
    index: u64,
    chunk_len: u64,
    block_size: u64,
    start: u64,
    count: u64,
    out: &mut [u8],
) -> Result<usize, Refusal> {
    counted(sys::read_plan(list, index, chunk_len, block_size, start, count, out))
}

/// Writes the plan that copies the first `k` records into the new slice `new_id`, and the
/// list that has one record in their stead. Each piece carries `index`, that of the chunk in its
/// file. Refusals: 21, 8, 1 to 6, 16, 10, 9, 12.
///
/// Once the plan is copied out, the old list and the new one read the same bytes, also with the
/// same records appended to both. A call takes a list with its appended records as one: a slice
/// must have one size in all of them.
///
/// ```
/// use ezumokarin::{compact, records, Compacted, Piece, Record};
/// let first = Record { pos: 0, id: 7, size: 5, off: 0, len: 5 };
/// let second = Record { pos: 5, id: 8, size: 5, off: 0, len: 5 };
/// let list = [first.to_bytes(), second.to_bytes()].concat();
/// let (mut plan, mut new_list) = ([0; 2 * Piece::LEN], [0; 24]);
/// let counts = compact(&list, 7, 65_536, 2, 9, &mut plan, &mut new_list)?;
/// assert_eq!(counts, Compacted { plan: 68, list: 24 });
/// let copied = Record { pos: 0, id: 9, size: 10, off: 0, len: 10 };
/// assert_eq!(records(&new_list).collect::<Vec<_>>(), [copied]);
/// # Ok::<(), ezumokarin::Refusal>(())
/// ```
pub fn compact(
    list: &[u8],
    index: u64,
    block_size: u64,
    k: u64,
    new_id: u64,
    plan: &mut [u8],
    new_list: &mut [u8],
) -> Result<Compacted, Refusal> {
    let answer = sys::compact(list, index, block_size, k, new_id, plan, new_list);
    passed(answer.refusal, answer.place)?;
    Ok(Compacted { plan: answer.plan as usize, list: answer.list as usize })
}

/// The count of an answer; it is never more than a length that the caller has in memory.
pub(crate) fn counted(answer: sys::ezk_answer) -> Result<usize, Refusal> {
    passed(answer.refusal, answer.place)?;
    Ok(answer.count as usize)
}
