//! The quadratic walk.
//!
//! Two scans under everything: the source at a position, and how far it certainly runs on. It
//! walks twice: count, then write.

use crate::record::{four, Record, RecordBytes, CHUNK, RECORD};
use crate::yard::check::checked;
use crate::yard::source::Source;
use crate::yard::Room;

/// The last record that covers the position; only pos and len are read until one does.
#[inline]
fn source_at(records: &[RecordBytes], p: u32) -> Source {
    for bytes in records.iter().rev() {
        // One comparison: a position in front of the record wraps to a large distance.
        if p.wrapping_sub(four(bytes, 0)) < four(bytes, 20) {
            return Source::of(&Record::from_bytes(bytes), p);
        }
    }
    Source::Nothing
}

/// The nearest record boundary behind the position, at most the chunk's end.
#[inline]
fn unbroken_to(records: &[RecordBytes], p: u32) -> u32 {
    let behind = p + 1;
    let mut least = CHUNK - behind;
    for bytes in records {
        let start = four(bytes, 0);
        let stop = start + four(bytes, 20);
        // A boundary that isn't behind the position wraps to a large distance.
        least = least.min(start.wrapping_sub(behind)).min(stop.wrapping_sub(behind));
    }
    behind + least
}

/// The maximal run from `p` on: its source and its end.
fn run_at(records: &[RecordBytes], p: u32) -> (Source, u32) {
    let first = source_at(records, p);
    let mut to = unbroken_to(records, p);
    while to < CHUNK && source_at(records, to) == first.after(to - p) {
        to = unbroken_to(records, to);
    }
    (first, to)
}

#[inline(never)]
pub fn view(list: &[u8], room: &mut Room, out: &mut [u8]) -> Option<usize> {
    let records = checked(list, &mut room.sizes)?;
    let (mut runs, mut p) = (0, 0);
    while p < CHUNK {
        p = run_at(records, p).1;
        runs += 1;
    }
    let (out, _) = out.get_mut(..runs * RECORD)?.as_chunks_mut::<RECORD>();
    let mut p = 0;
    for bytes in out {
        let (first, end) = run_at(records, p);
        first.run(p, end - p).write(bytes);
        p = end;
    }
    Some(runs * RECORD)
}
