//! Segments joined into maximal runs.

use crate::record::{four, RecordBytes};

/// The run that isn't ended yet: where it began, and the record on top there, counted from 1, or 0.
struct Run {
    pos: u32,
    top: u32,
}

/// Which neighbours are one run, besides bytes of a slice that go on.
#[derive(Clone, Copy, PartialEq, Eq)]
pub enum Zeros {
    /// Zeros that were written join each other.
    Written,
    /// They join uncovered bytes too.
    All,
}

/// Takes segments in order, and calls `visit` with each run: its ends and its first record on top.
pub struct Runs<'a, F> {
    records: &'a [RecordBytes],
    zeros: Zeros,
    run: Run,
    visit: F,
}

impl<'a, F: FnMut(u32, u32, u32)> Runs<'a, F> {
    #[inline(always)]
    pub fn new(records: &'a [RecordBytes], zeros: Zeros, from: u32, visit: F) -> Self {
        Runs { records, zeros, run: Run { pos: from, top: 0 }, visit }
    }

    #[inline(always)]
    pub fn segment(&mut self, pos: u32, top: u32) {
        if !self.joins(top) {
            self.end(pos);
            self.run = Run { pos, top };
        }
    }

    /// Ends the run. The first segment ends an empty one, of which nothing is told.
    #[inline(always)]
    pub fn end(&mut self, at: u32) {
        if at != self.run.pos {
            (self.visit)(self.run.pos, at, self.run.top);
        }
    }

    /// Ids tell nearly always; a slice has one size, and goes on where both records lie alike in it.
    #[inline(always)]
    fn joins(&self, top: u32) -> bool {
        if top == self.run.top {
            return true;
        }
        let (one, other) = (record(self.records, self.run.top), record(self.records, top));
        raw_id(one) == raw_id(other) && self.goes_on(one, other, top)
    }

    #[cold]
    fn goes_on(&self, one: &RecordBytes, other: &RecordBytes, top: u32) -> bool {
        if raw_id(one) == 0 {
            return self.zeros == Zeros::All || self.run.top != 0 && top != 0;
        }
        lies(one) == lies(other)
    }
}

/// What stands for uncovered bytes.
const NOTHING: RecordBytes = [0; 24];

/// A record, counted from 1, or what stands for uncovered bytes.
#[inline(always)]
pub fn record(records: &[RecordBytes], top: u32) -> &RecordBytes {
    records.get((top as usize).wrapping_sub(1)).unwrap_or(&NOTHING)
}

/// An id as its bytes stand: to be compared and copied, not to be read.
#[inline(always)]
pub fn raw_id(bytes: &RecordBytes) -> u64 {
    let [_, _, _, _, a, b, c, d, e, f, g, h, ..] = *bytes;
    u64::from_ne_bytes([a, b, c, d, e, f, g, h])
}

/// Slice offset less position.
#[inline(always)]
pub fn lies(bytes: &RecordBytes) -> u32 {
    four(bytes, 16).wrapping_sub(four(bytes, 0))
}
