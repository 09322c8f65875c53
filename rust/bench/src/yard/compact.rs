//! Compaction of the first k records into one new slice.

use crate::record::{id, Record, RecordBytes, PIECE, RECORD};
use crate::yard::check::checked;
use crate::yard::plan::{allowed, write};
use crate::yard::room::most_pieces;
use crate::yard::Room;

/// How the records are compacted.
#[derive(Clone, Copy)]
pub struct Order {
    pub index: u32,
    pub block_size: u32,
    pub k: usize,
    pub new_id: u64,
}

/// Lengths of the plan and of the new list.
#[inline(never)]
pub fn compact(
    list: &[u8],
    order: Order,
    room: &mut Room,
    plan: &mut [u8],
    new_list: &mut [u8],
) -> Option<(usize, usize)> {
    let Order { index, block_size, k, new_id } = order;
    if !allowed(block_size) {
        return None;
    }
    let Room { spans, sizes, aside, .. } = room;
    let records = checked(list, sizes)?;
    if k > records.len() || new_id == 0 || records.iter().any(|bytes| id(bytes) == new_id) {
        return None;
    }
    let records = &records[..k];
    spans.take(records);
    let whole = spans.whole();
    let rest = &list[k * RECORD..];
    let length = rest.len() + if whole.is_some() { RECORD } else { 0 };
    let new_list = new_list.get_mut(..length)?;
    let range = whole.unwrap_or((0, 0));
    // Both buffers must be long enough before either is written.
    let direct = most_pieces(k, block_size) * PIECE <= plan.len();
    let target = if direct { &mut *plan } else { &mut aside[..] };
    let pieces = write(spans, records, (index, block_size), range, target);
    if !direct {
        plan.get_mut(..pieces)?.copy_from_slice(&aside[..pieces]);
    }
    write_list(new_list, whole, new_id, rest);
    Some((pieces, length))
}

/// One record in the stead of those compacted, where they cover anything, then the others.
fn write_list(new_list: &mut [u8], whole: Option<(u32, u32)>, new_id: u64, rest: &[u8]) {
    let (front, back) = new_list.split_at_mut(new_list.len() - rest.len());
    if let (Some((pos, end)), Ok(front)) = (whole, <&mut RecordBytes>::try_from(front)) {
        let len = end - pos;
        Record { pos, id: new_id, size: len, off: 0, len }.write(front);
    }
    back.copy_from_slice(rest);
}
