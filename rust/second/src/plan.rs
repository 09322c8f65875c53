//! Read plans: which object gives which bytes of a read.

use crate::runs::{join, parts, Run, Step};
use crate::{check, put, Answer, Piece, Record, Refusal, Source};

/// Where the byte at a position lies.
#[derive(Clone, Copy, Debug, PartialEq, Eq)]
pub enum Location {
    Zeros,
    Object { id: u64, block: u64, length: u64, at: u64 },
}

/// Refusals 7, 21, 8, 1, 2, 3 to 6, 16, 12.
pub fn read_plan(
    list: &[u8],
    index: u64,
    chunk_len: u64,
    block_size: u64,
    start: u64,
    count: u64,
    out: &mut [u8],
) -> Answer {
    put(read_plan_bytes(list, index, chunk_len, block_size, start, count), out)
}

/// The plan, however short the caller's buffer may be.
pub fn read_plan_bytes(
    list: &[u8],
    index: u64,
    chunk_len: u64,
    block_size: u64,
    start: u64,
    count: u64,
) -> Result<Vec<u8>, Refusal> {
    check::chunk_length(chunk_len)?;
    check::index(index)?;
    check::block_size(block_size)?;
    let records = check::records(list)?;
    if start >= chunk_len {
        return Ok(Vec::new());
    }
    let end = start + count.min(chunk_len - start);
    Ok(plan_bytes(&records, index, block_size, start, end))
}

/// The bytes of the plan for positions `from` up to `to` of any records, also of a list that is
/// refused.
pub fn plan_bytes(records: &[Record], index: u64, block_size: u64, from: u64, to: u64) -> Vec<u8> {
    let mut locations = Vec::new();
    for part in parts(records, from, to) {
        locations.extend(in_blocks(part, block_size));
    }
    let piece = |run: Run<Location>| {
        Piece { index, place: run.start - from, from: run.first, len: run.len }.to_bytes()
    };
    join(locations).into_iter().flat_map(piece).collect()
}

/// Cuts a part at the edges of its slice's blocks.
pub fn in_blocks(part: Run<Source>, block_size: u64) -> Vec<Run<Location>> {
    let mut cut = Vec::new();
    let mut done = 0;
    while done < part.len {
        let first = location_of(part.first.after(done), block_size);
        let left = part.len - done;
        let len = match first {
            Location::Zeros => left,
            Location::Object { at, .. } => left.min(block_size - at),
        };
        cut.push(Run { start: part.start + done, len, first });
        done += len;
    }
    cut
}

/// The location of a source.
pub fn location_of(source: Source, block_size: u64) -> Location {
    let Source::Byte { id, size, off } = source else {
        return Location::Zeros;
    };
    let block = off / block_size;
    let length = block_size.min(size - block * block_size);
    Location::Object { id, block, length, at: off % block_size }
}

impl Step for Location {
    fn after(self, bytes: u64) -> Location {
        match self {
            Location::Zeros => Location::Zeros,
            Location::Object { id, block, length, at } => {
                Location::Object { id, block, length, at: at + bytes }
            }
        }
    }
}
