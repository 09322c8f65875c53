//! Seeking in a view: which of its segments holds a position.

use crate::limits::RECORD;
use crate::{Record, Refusal};

/// A segment of a view, and its number from 0.
#[derive(Clone, Copy, Debug, PartialEq, Eq)]
pub struct Found {
    pub segment: u64,
    pub record: Record,
}

/// Refusal 1. Only the first `segments` segments are looked at; a number above is as if it were
/// that of all.
pub fn find(view: &[u8], segments: u64, position: u64) -> Result<Option<Found>, Refusal> {
    if !view.len().is_multiple_of(RECORD) {
        return Err(Refusal::of(1));
    }
    let mut row: Vec<Record> = view.chunks(RECORD).map(Record::from_bytes).collect();
    if segments < row.len() as u64 {
        row.truncate(segments as usize);
    }
    Ok(in_half(&row, 0, position))
}

/// Goes into the half whose first segment starts nearest before the position, until one segment is
/// left. It is tested: in a row that is no view it may not hold the position.
fn in_half(row: &[Record], before: usize, position: u64) -> Option<Found> {
    match row {
        [] => None,
        [record] if !record.covers(position) => None,
        [record] => Some(Found { segment: before as u64, record: *record }),
        _ => {
            let (front, back) = row.split_at(row.len() / 2);
            if back[0].pos <= position {
                in_half(back, before + front.len(), position)
            } else {
                in_half(front, before, position)
            }
        }
    }
}
