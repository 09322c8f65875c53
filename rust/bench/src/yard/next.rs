//! The piece that comes next in a read of the whole chunk: one scan, and the sweep only where the
//! piece joins parts of several records.

use crate::pieces::Next;
use crate::record::{four, RecordBytes, CHUNK};
use crate::yard::check::checked;
use crate::yard::plan::allowed;
use crate::yard::runs::{lies, raw_id, record, Runs, Zeros};
use crate::yard::scan::top_at;
use crate::yard::sweep::Spans;
use crate::yard::Room;

const OBJECT: u64 = 0x5242;
const ZEROS: u64 = 0x525a;

#[inline(never)]
pub fn next_piece(
    list: &[u8],
    index: u32,
    block_size: u32,
    at: u32,
    room: &mut Room,
) -> Option<Next> {
    if !allowed(block_size) {
        return None;
    }
    let Room { spans, sizes, .. } = room;
    let records = checked(list, sizes)?;
    if at >= CHUNK {
        return Some(Next { finished: 1, next: at.into(), ..Next::default() });
    }
    let part = part(records, block_size, at);
    let mut end = part.end;
    if part.joined {
        spans.take(records);
        end = run_end(spans, records, at).min(part.block_end);
    }
    Some(piece(record(records, part.top), index, block_size, at, end))
}

/// Whether the piece at a place joins parts of several records; the list is acceptable.
pub fn joined(list: &[u8], block_size: u32, at: u32) -> bool {
    part(list.as_chunks().0, block_size, at).joined
}

/// What the record on top, counted from 1, or 0, gives to a piece.
struct Part {
    top: u32,
    end: u32,
    joined: bool,
    /// The piece ends here at the latest.
    block_end: u32,
}

#[inline(always)]
fn part(records: &[RecordBytes], block_size: u32, at: u32) -> Part {
    let top = top_at(records, at);
    let bytes = record(records, top.number);
    let block_end = match raw_id(bytes) {
        0 => CHUNK,
        _ => at + block_size - (offset(bytes, at) & (block_size - 1)),
    };
    let end = top.end.min(block_end);
    let joined = end < block_end.min(CHUNK) && {
        let other = record(records, top.behind(records));
        raw_id(bytes) == raw_id(other) && (raw_id(bytes) == 0 || lies(bytes) == lies(other))
    };
    Part { top: top.number, end, joined, block_end }
}

/// The slice offset at a position.
#[inline(always)]
fn offset(bytes: &RecordBytes, at: u32) -> u32 {
    four(bytes, 16) + (at - four(bytes, 0))
}

/// Where the run ends that holds the position.
fn run_end(spans: &Spans, records: &[RecordBytes], at: u32) -> u32 {
    let mut found = CHUNK;
    let mut runs = Runs::new(records, Zeros::All, 0, |pos, end, _| {
        if pos <= at && at < end {
            found = end;
        }
    });
    spans.segments(0, CHUNK, |at, top| runs.segment(at, top));
    runs.end(CHUNK);
    found
}

#[inline(always)]
fn piece(bytes: &RecordBytes, index: u32, block_size: u32, at: u32, end: u32) -> Next {
    let (index, next, len) = (index.into(), end.into(), (end - at).into());
    let zeros = Next { mark: ZEROS, index, at: at.into(), next, len, ..Next::default() };
    if raw_id(bytes) == 0 {
        return zeros;
    }
    let off = offset(bytes, at);
    let in_block = off & (block_size - 1);
    let block_len = block_size.min(four(bytes, 12) - (off - in_block));
    Next {
        mark: OBJECT,
        id: u64::from_be(raw_id(bytes)),
        block: (off >> block_size.trailing_zeros()).into(),
        block_len: block_len.into(),
        in_block: in_block.into(),
        ..zeros
    }
}
