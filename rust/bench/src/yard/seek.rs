//! Seeking in a view: from the front of its bytes, and by halving in a row of records.

use crate::record::{four, Record, RECORD};

/// The segment that holds the position, and its number.
pub type Found = Option<(usize, Record)>;

/// From the front.
#[inline(never)]
pub fn walk(view: &[u8], position: u32) -> Found {
    let (segments, _) = view.as_chunks::<RECORD>();
    let holds = |bytes: &&_| position.wrapping_sub(four(bytes, 0)) < four(bytes, 20);
    let (number, bytes) = segments.iter().enumerate().find(|(_, bytes)| holds(bytes))?;
    Some((number, Record::from_bytes(bytes)))
}

/// By halving, as the standard library does it.
#[inline(never)]
pub fn halve(row: &[Record], position: u32) -> Found {
    let behind = row.partition_point(|segment| segment.pos <= position);
    let number = behind.checked_sub(1)?;
    let segment = row[number];
    (position - segment.pos < segment.len).then_some((number, segment))
}

/// The row of a view.
pub fn row(view: &[u8]) -> Vec<Record> {
    view.as_chunks::<RECORD>().0.iter().map(Record::from_bytes).collect()
}
