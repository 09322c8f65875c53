//! What lies on top of one position, and how far: one scan from the last record down.

use crate::record::{four, RecordBytes, CHUNK};

/// The record on top, counted from 1, or 0; it is on top up to `end`.
#[derive(Clone, Copy)]
pub struct Top {
    pub number: u32,
    pub end: u32,
    /// The record that begins there, or 0.
    next: u32,
}

/// Distances wrap: a position in front of the record is far from its beginning, and so is the
/// beginning of a record that isn't behind the position. So each test is one comparison, and the
/// second is rarely true.
#[inline(always)]
pub fn top_at(records: &[RecordBytes], p: u32) -> Top {
    let behind = p + 1;
    let (mut near, mut next) = (CHUNK - behind, 0);
    let mut left = records;
    while let [rest @ .., bytes] = left {
        let (pos, len) = (four(bytes, 0), four(bytes, 20));
        if p.wrapping_sub(pos) < len {
            return top(left.len() as u32, pos + len, behind + near, next);
        }
        let ahead = pos.wrapping_sub(behind);
        if ahead < near && len != 0 {
            (near, next) = (ahead, left.len() as u32);
        }
        left = rest;
    }
    Top { number: 0, end: behind + near, next }
}

/// A record that ends at `end` is on top, up to where a later one begins.
#[inline(always)]
fn top(number: u32, end: u32, near: u32, next: u32) -> Top {
    if end < near {
        return Top { number, end, next: 0 };
    }
    Top { number, end: near, next }
}

impl Top {
    /// The record on top of the end, counted from 1, or 0. The end is in the chunk.
    #[inline(always)]
    pub fn behind(&self, records: &[RecordBytes]) -> u32 {
        if self.next != 0 {
            return self.next;
        }
        let below = &records[..self.number as usize];
        let covers = |bytes: &RecordBytes| self.end.wrapping_sub(four(bytes, 0)) < four(bytes, 20);
        below.iter().rposition(covers).map_or(0, |i| i as u32 + 1)
    }
}
