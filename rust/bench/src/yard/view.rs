//! The view of the whole chunk, and the tidied list.

use crate::record::{four, RecordBytes, CHUNK, RECORD, TIDIED_RECORDS};
use crate::yard::check::checked;
use crate::yard::room::written;
use crate::yard::runs::{raw_id, record, Runs, Zeros};
use crate::yard::sweep::Spans;
use crate::yard::Room;

#[inline(never)]
pub fn view(list: &[u8], room: &mut Room, out: &mut [u8]) -> Option<usize> {
    let Room { spans, sizes, aside, .. } = room;
    let records = checked(list, sizes)?;
    spans.take(records);
    let most = (2 * records.len() + 1) * RECORD;
    written(out, aside, most, |out| write(spans, records, true, out))
}

#[inline(never)]
pub fn tidy(list: &[u8], room: &mut Room, out: &mut [u8]) -> Option<usize> {
    let Room { spans, sizes, aside, .. } = room;
    let records = checked(list, sizes)?;
    spans.take(records);
    let most = (2 * records.len() + 1) * RECORD;
    // A list that may be too long is written where that is no harm.
    if most <= TIDIED_RECORDS * RECORD {
        return written(out, aside, most, |out| write(spans, records, false, out));
    }
    let count = write(spans, records, false, aside);
    if count > TIDIED_RECORDS * RECORD {
        return None;
    }
    out.get_mut(..count)?.copy_from_slice(&aside[..count]);
    Some(count)
}

/// Writes the runs, uncovered ones only with `holes`; there is room for all.
#[inline(always)]
fn write(spans: &Spans, records: &[RecordBytes], holes: bool, out: &mut [u8]) -> usize {
    let (out, _) = out.as_chunks_mut::<RECORD>();
    let mut count = 0;
    let mut runs = Runs::new(records, Zeros::Written, 0, |pos, end, top| {
        if holes || top != 0 {
            write_run(records, pos, end, top, &mut out[count]);
            count += 1;
        }
    });
    spans.segments(0, CHUNK, |at, top| runs.segment(at, top));
    runs.end(CHUNK);
    count * RECORD
}

/// Id and size are copied as they stand. Where the id is 0 there is no offset.
#[inline(always)]
pub fn write_run(records: &[RecordBytes], pos: u32, end: u32, top: u32, out: &mut RecordBytes) {
    let bytes = record(records, top);
    let (id, len) = (raw_id(bytes), end - pos);
    let off = four(bytes, 16).wrapping_add(pos.wrapping_sub(four(bytes, 0)));
    let hole = if top == 0 { len } else { 0 };
    let (size, off) = if id == 0 { (hole, 0) } else { (four(bytes, 12), off) };
    out[0..4].copy_from_slice(&pos.to_be_bytes());
    out[4..12].copy_from_slice(&id.to_ne_bytes());
    out[12..16].copy_from_slice(&size.to_be_bytes());
    out[16..20].copy_from_slice(&off.to_be_bytes());
    out[20..24].copy_from_slice(&len.to_be_bytes());
}
