//! The read plan of a range: runs, cut at the ends of blocks.

use crate::record::{four, RecordBytes, CHUNK, PIECE};
use crate::yard::check::checked;
use crate::yard::room::{most_pieces, written};
use crate::yard::runs::{raw_id, record, Runs, Zeros};
use crate::yard::sweep::Spans;
use crate::yard::Room;

/// The plan of the whole chunk.
#[inline(never)]
pub fn read_plan(
    list: &[u8],
    index: u32,
    block_size: u32,
    room: &mut Room,
    out: &mut [u8],
) -> Option<usize> {
    if !allowed(block_size) {
        return None;
    }
    let Room { spans, sizes, aside, .. } = room;
    let records = checked(list, sizes)?;
    spans.take(records);
    let most = most_pieces(records.len(), block_size) * PIECE;
    let range = (0, CHUNK);
    written(out, aside, most, |out| write(spans, records, (index, block_size), range, out))
}

pub fn allowed(block_size: u32) -> bool {
    block_size.is_power_of_two() && (65_536..=16_777_216).contains(&block_size)
}

/// Writes the pieces of a range, which no record passes; there is room for all.
#[inline(always)]
pub fn write(
    spans: &Spans,
    records: &[RecordBytes],
    (index, block_size): (u32, u32),
    (from, to): (u32, u32),
    out: &mut [u8],
) -> usize {
    let (out, _) = out.as_chunks_mut::<PIECE>();
    let mut pen = Pen { out, count: 0, index, from, block_size };
    let mut runs = Runs::new(records, Zeros::All, from, |pos, end, top| {
        pen.run(record(records, top), pos, end)
    });
    spans.segments(from, to, |at, top| runs.segment(at, top));
    runs.end(to);
    pen.count * PIECE
}

struct Pen<'a> {
    out: &'a mut [[u8; PIECE]],
    count: usize,
    index: u32,
    from: u32,
    block_size: u32,
}

impl Pen<'_> {
    /// The pieces of a run.
    #[inline(always)]
    fn run(&mut self, bytes: &RecordBytes, pos: u32, end: u32) {
        if raw_id(bytes) == 0 {
            return self.zeros(pos, end - pos);
        }
        let mut at = pos;
        let mut off = four(bytes, 16) + (pos - four(bytes, 0));
        while at < end {
            // Block sizes are powers of two: no division is needed.
            let len = (self.block_size - (off & (self.block_size - 1))).min(end - at);
            self.object(bytes, at, off, len);
            (at, off) = (at + len, off + len);
        }
    }

    #[inline(always)]
    fn zeros(&mut self, pos: u32, len: u32) {
        let out = &mut self.out[self.count];
        *out = [0; PIECE];
        out[0..2].copy_from_slice(b"RZ");
        out[2..6].copy_from_slice(&self.index.to_be_bytes());
        out[6..10].copy_from_slice(&(pos - self.from).to_be_bytes());
        out[30..34].copy_from_slice(&len.to_be_bytes());
        self.count += 1;
    }

    #[inline(always)]
    fn object(&mut self, bytes: &RecordBytes, pos: u32, off: u32, len: u32) {
        let block = off >> self.block_size.trailing_zeros();
        let at = off & (self.block_size - 1);
        let length = self.block_size.min(four(bytes, 12) - (off - at));
        let out = &mut self.out[self.count];
        out[0..2].copy_from_slice(b"RB");
        out[2..6].copy_from_slice(&self.index.to_be_bytes());
        out[6..10].copy_from_slice(&(pos - self.from).to_be_bytes());
        out[10..18].copy_from_slice(&raw_id(bytes).to_ne_bytes());
        out[18..22].copy_from_slice(&block.to_be_bytes());
        out[22..26].copy_from_slice(&length.to_be_bytes());
        out[26..30].copy_from_slice(&at.to_be_bytes());
        out[30..34].copy_from_slice(&len.to_be_bytes());
        self.count += 1;
    }
}
