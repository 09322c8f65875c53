//! Reads across the chunks of a file. The file is one row of positions, which is cut at every
//! boundary of a record and at every edge of a chunk; single plans are not put together.

use crate::limits::{CHUNK, FILE_LISTS, INDEX_MAX};
use crate::plan::in_blocks;
use crate::runs::{divided, join, Run, Step};
use crate::{check, put, source_at, Location, Piece, Record, Refusal, Source};

/// A file's length, and the lists of some of its chunks: `lengths` are those of the lists, which
/// stand one behind the other in `lists`, from that of chunk `first_index` on.
#[derive(Clone, Copy, Debug)]
pub struct File<'a> {
    pub lists: &'a [u8],
    pub lengths: &'a [u64],
    pub first_index: u64,
    pub file_len: u64,
}

/// A refusal, and the chunk index of the refused list; 0 where no list is at fault.
#[derive(Clone, Copy, Debug, PartialEq, Eq)]
pub struct ListRefusal {
    pub refusal: Refusal,
    pub index: u64,
}

/// Where a byte lies, and in which chunk: two bytes of two chunks are never in one run.
#[derive(Clone, Copy, Debug, PartialEq, Eq)]
pub struct InChunk {
    pub index: u64,
    pub location: Location,
}

/// Refusals 21, 8, then list by list 1, 2, 3 to 6, 16; then 12.
pub fn file_plan(
    file: &File,
    block_size: u64,
    start: u64,
    count: u64,
    out: &mut [u8],
) -> Result<usize, ListRefusal> {
    let bytes = file_plan_bytes(file, block_size, start, count)?;
    put(Ok(bytes), out).map_err(ListRefusal::of_no_list)
}

/// The plan, however short the caller's buffer may be. `start` counts from the first chunk's
/// beginning.
pub fn file_plan_bytes(
    file: &File,
    block_size: u64,
    start: u64,
    count: u64,
) -> Result<Vec<u8>, ListRefusal> {
    let parts = located(file, block_size, start, count)?;
    Ok(join(parts).iter().flat_map(|run| piece(run).to_bytes()).collect())
}

/// Where the bytes of a read lie, in parts that need not be the longest; they start at places in the
/// read.
pub fn located(
    file: &File,
    block_size: u64,
    start: u64,
    count: u64,
) -> Result<Vec<Run<InChunk>>, ListRefusal> {
    file.check().map_err(ListRefusal::of_no_list)?;
    check::block_size(block_size).map_err(ListRefusal::of_no_list)?;
    let chunks = file.chunks()?;
    let end = file.end();
    if start >= end {
        return Ok(Vec::new());
    }
    let to = start + count.min(end - start);
    let mut located = Vec::new();
    for part in parts(&chunks, start, to) {
        let index = file.first_index + part.start / CHUNK;
        let in_chunk = |run: Run<Location>| {
            let first = InChunk { index, location: run.first };
            Run { start: run.start - start, len: run.len, first }
        };
        located.extend(in_blocks(part, block_size).into_iter().map(in_chunk));
    }
    Ok(located)
}

/// Divides the file's positions from `from` up to `to` at every boundary of a record and every edge
/// of a chunk.
fn parts(chunks: &[Vec<Record>], from: u64, to: u64) -> Vec<Run<Source>> {
    let mut edges = Vec::new();
    for (first, records) in (0..).step_by(CHUNK as usize).zip(chunks) {
        edges.push(first);
        edges.extend(records.iter().flat_map(|record| [first + record.pos, first + record.end()]));
    }
    let source = |p: u64| source_at(&chunks[(p / CHUNK) as usize], p % CHUNK);
    let part = |(start, len)| Run { start, len, first: source(start) };
    divided(edges.into_iter(), from, to).map(part).collect()
}

fn piece(run: &Run<InChunk>) -> Piece {
    let InChunk { index, location } = run.first;
    Piece { index, place: run.start, from: location, len: run.len }
}

impl Step for InChunk {
    fn after(self, bytes: u64) -> InChunk {
        InChunk { location: self.location.after(bytes), ..self }
    }
}

impl ListRefusal {
    fn of_no_list(refusal: Refusal) -> ListRefusal {
        ListRefusal { refusal, index: 0 }
    }
}

impl File<'_> {
    /// Refusal 21, by sums of mathematics.
    fn check(&self) -> Result<(), Refusal> {
        let count = self.lengths.len();
        let sum: u128 = self.lengths.iter().map(|length| u128::from(*length)).sum();
        let behind = u128::from(self.first_index) + count as u128;
        if !(1..=FILE_LISTS).contains(&count)
            || sum != self.lists.len() as u128
            || behind > u128::from(INDEX_MAX) + 1
        {
            return Err(Refusal::of(21));
        }
        Ok(())
    }

    /// The records of every list, or the refusal of the first list that has one.
    fn chunks(&self) -> Result<Vec<Vec<Record>>, ListRefusal> {
        let mut rest = self.lists;
        let mut chunks = Vec::new();
        for (index, length) in (self.first_index..).zip(self.lengths) {
            let (list, behind) = rest.split_at(*length as usize);
            rest = behind;
            let refused = |refusal| ListRefusal { refusal, index };
            chunks.push(check::records(list).map_err(refused)?);
        }
        Ok(chunks)
    }

    /// Where the file or the last list ends, counted from the first chunk's beginning.
    fn end(&self) -> u64 {
        let in_file = self.file_len.saturating_sub(self.first_index * CHUNK);
        in_file.min(self.lengths.len() as u64 * CHUNK)
    }
}
