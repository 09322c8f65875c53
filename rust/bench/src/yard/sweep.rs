//! The sweep: over the chunk from front to back, the open record that was written last is on top.

use crate::record::{four, RecordBytes, LIST_RECORDS};
use crate::yard::open::Open;
use crate::yard::order::{key, number, position, sort, Keys};

/// Where records begin, in order of position, and where they end.
pub struct Spans {
    keys: Keys,
    other: Keys,
    ends: [u32; LIST_RECORDS],
    /// How many cover anything.
    count: usize,
}

/// A key behind all others.
const NEVER: u64 = u64::MAX;

impl Spans {
    pub fn new() -> Spans {
        let (keys, other) = ([0; LIST_RECORDS], [0; LIST_RECORDS]);
        Spans { keys, other, ends: [0; LIST_RECORDS], count: 0 }
    }

    /// Takes in checked records; empty ones are left out.
    #[inline(always)]
    pub fn take(&mut self, records: &[RecordBytes]) {
        self.count = 0;
        for (i, bytes) in records.iter().enumerate() {
            let (pos, len) = (four(bytes, 0), four(bytes, 20));
            self.keys[self.count % LIST_RECORDS] = key(pos, i);
            self.ends[i % LIST_RECORDS] = pos + len;
            self.count += usize::from(len != 0);
        }
        sort(&mut self.keys, &mut self.other, self.count);
    }

    /// The first covered position and the one behind the last.
    pub fn whole(&self) -> Option<(u32, u32)> {
        let keys = &self.keys[..self.count];
        let ends = keys.iter().map(|key| self.end(number(*key)));
        Some((position(*keys.first()?), ends.max()?))
    }

    /// Calls `visit` with each segment from `from` on, up to `to`, which no record passes: where it
    /// begins, and the record on top, counted from 1, or 0. The set is searched only where the top
    /// one has ended.
    #[inline(always)]
    pub fn segments(&self, from: u32, to: u32, mut visit: impl FnMut(u32, u32)) {
        let mut keys = self.keys[..self.count].iter().copied();
        let mut coming = keys.next().unwrap_or(NEVER);
        let mut open = Open::none();
        let (mut at, mut top, mut until) = (from, 0, to);
        while at < to {
            while position(coming) <= at {
                let new = number(coming);
                open.add(new);
                if new >= top {
                    (top, until) = (new + 1, self.end(new));
                }
                coming = keys.next().unwrap_or(NEVER);
            }
            if until <= at {
                let found = open.greatest(|number| self.end(number) > at);
                (top, until) = found.map_or((0, to), |number| (number + 1, self.end(number)));
            }
            let next = position(coming).min(until);
            visit(at, top);
            at = next;
        }
    }

    /// The segments up to `to`, with the record on top; the set is searched at each.
    #[inline(always)]
    pub fn searched(&self, to: u32, mut visit: impl FnMut(u32, Option<u32>)) {
        let mut keys = self.keys[..self.count].iter().copied();
        let mut coming = keys.next().unwrap_or(NEVER);
        let mut open = Open::none();
        let mut at = 0;
        while at < to {
            while position(coming) <= at {
                open.add(number(coming));
                coming = keys.next().unwrap_or(NEVER);
            }
            let top = open.greatest(|number| self.end(number) > at);
            visit(at, top);
            at = position(coming).min(top.map_or(to, |number| self.end(number)));
        }
    }

    #[inline(always)]
    fn end(&self, number: u32) -> u32 {
        self.ends[number as usize % LIST_RECORDS]
    }
}
