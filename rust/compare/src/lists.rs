//! Random lists of several shapes.

use std::collections::HashMap;
use std::iter;

use second::limits::{CHUNK, LIST_RECORDS, TIDIED_RECORDS};
use second::Record;

use crate::{ids, joining, numbers};
use rng::Rng;

/// The shape with about twice as many runs as records.
const COMB: u64 = 8;
/// The shape with about as many slices as records.
const SLICES: u64 = 10;
/// The shape whose parts join to few pieces, and the last of all; it takes two turns.
const JOINING: u64 = 11;
const TURNS: u64 = 13;

/// A list that is mostly sound; `mutate::list` spoils some.
pub fn sound(rng: &mut Rng) -> Vec<u8> {
    let list = some_records(rng).iter().flat_map(Record::to_bytes).collect();
    if rng.once_in(8) {
        return fed_back(rng, list);
    }
    list
}

/// Records that pass 3 to 6. Now and then a slice keeps the several sizes of its shape.
fn some_records(rng: &mut Rng) -> Vec<Record> {
    let shape = rng.below(TURNS).min(JOINING);
    let count = records(rng, shape);
    match shape {
        SLICES => return ids::many_slices(rng, count),
        JOINING => return joining::records(rng, count),
        _ => {}
    }
    let mut records: Vec<Record> = (0..count).map(|i| record(rng, shape, i, count)).collect();
    if !rng.once_in(8) {
        one_size(&mut records);
    }
    records
}

/// Gives all records of a slice the largest of its sizes.
fn one_size(records: &mut [Record]) {
    let mut sizes: HashMap<u64, u64> = HashMap::new();
    for record in records.iter() {
        let size = sizes.entry(record.id).or_default();
        *size = record.size.max(*size);
    }
    for record in records.iter_mut().filter(|record| record.id != 0) {
        record.size = sizes[&record.id];
    }
}

/// A view of the list in its place. Without a view the list stays.
fn fed_back(rng: &mut Rng, list: Vec<u8>) -> Vec<u8> {
    second::view_bytes(&list, numbers::chunk_len(rng)).unwrap_or(list)
}

/// Zeros have size 0 or, like the holes of a view, their length.
fn zeros(rng: &mut Rng, pos: u64, len: u64) -> Record {
    Record::new(pos, 0, rng.pick(&[0, len]), 0, len)
}

/// A slice under zeros at every second byte: as many runs as the slice has bytes.
pub fn combed(id: u64, bytes: u64) -> Vec<Record> {
    let zeros = (0..bytes / 2).map(|i| Record::new(2 * i + 1, 0, 0, 0, 1));
    iter::once(Record::new(0, id, bytes, 0, bytes)).chain(zeros).collect()
}

/// Short lists mostly: they are quick, and what goes wrong shows in few records. Some are as long
/// as a list may be, or a little longer; some combs are so once they are tidied.
fn records(rng: &mut Rng, shape: u64) -> u64 {
    match rng.below(2_000) {
        0..=11 => LIST_RECORDS as u64 - 8 + rng.below(17),
        12..=100 if shape == COMB => TIDIED_RECORDS as u64 / 2 - 32 + rng.below(80),
        12..=1_000 if shape == SLICES => 150 + rng.below(300),
        12..=1_200 if shape == JOINING => 20 + rng.below(60),
        12..=70 => rng.below(120),
        _ => rng.below(11),
    }
}

fn record(rng: &mut Rng, shape: u64, i: u64, count: u64) -> Record {
    match shape {
        0 => dense(rng),
        1 => sparse(rng),
        2 => rejoined(rng),
        3 => two_sizes(rng),
        4 => zeros_beside_holes(rng),
        5 => often_empty(rng),
        6 => at_block_edges(rng),
        7 => nested(rng, i, count),
        COMB => comb(rng, i, count),
        _ => {
            let shape = rng.below(7);
            record(rng, shape, i, count)
        }
    }
}

/// Ids that agree in one half, so that no half may be left out of a comparison.
fn some_id(rng: &mut Rng) -> u64 {
    rng.pick(&[1, 2, 3, 1 << 32, (1 << 32) + 1, u64::MAX, 1 << 63])
}

/// Many records in little room.
fn dense(rng: &mut Rng) -> Record {
    let (pos, len) = (rng.below(64), rng.below(20));
    if rng.once_in(4) {
        return zeros(rng, pos, len);
    }
    Record::new(pos, some_id(rng), 100, rng.below(80), len)
}

/// Few records anywhere in the chunk, of any length.
fn sparse(rng: &mut Rng) -> Record {
    let pos = rng.below(CHUNK);
    let len = rng.below(CHUNK - pos + 1) >> rng.below(26);
    if rng.once_in(5) {
        return zeros(rng, pos, len);
    }
    let size = len + rng.below(CHUNK - len + 1);
    Record::new(pos, some_id(rng), size, rng.below(size - len + 1), len)
}

/// Two slices that each lie at their own offsets, so that cut parts join again.
fn rejoined(rng: &mut Rng) -> Record {
    let (pos, len) = (rng.below(100), rng.below(40));
    match rng.below(5) {
        0 => zeros(rng, pos, len),
        1 => Record::new(pos, 2, 1_000, pos + 7, len),
        _ => Record::new(pos, 1, 1_000, pos, len),
    }
}

/// One slice in several sizes: blocks 0 and 1 are one object, block 2 only for some.
fn two_sizes(rng: &mut Rng) -> Record {
    let edge = rng.pick(&[0, 65_536, 131_072]);
    let (pos, len) = (edge + rng.below(60), rng.below(40));
    let pos = pos.saturating_sub(30);
    let size = rng.pick(&[196_608, 262_144, 196_607, 150_000, 131_072 + 100]);
    Record::new(pos, 1, size, pos, len)
}

/// Zeros and gaps between them, with a slice now and then.
fn zeros_beside_holes(rng: &mut Rng) -> Record {
    let (pos, len) = (rng.below(80), rng.below(10));
    if rng.once_in(4) {
        return Record::new(pos, 5, 200, pos, len);
    }
    zeros(rng, pos, len)
}

/// Records of length 0 at every kind of place, some at the chunk's end.
fn often_empty(rng: &mut Rng) -> Record {
    if rng.once_in(3) {
        return dense(rng);
    }
    let pos = rng.pick(&[0, 10, 20, 63, CHUNK - 1, CHUNK]);
    if rng.once_in(2) {
        return Record::new(pos, 0, 0, 0, 0);
    }
    let size = rng.pick(&[0, 1, 50, CHUNK]);
    Record::new(pos, some_id(rng), size, rng.below(size + 1), 0)
}

/// Positions and offsets about the edges of blocks and at the end of the chunk.
fn at_block_edges(rng: &mut Rng) -> Record {
    let pos = near_edge(rng).min(CHUNK);
    let len = rng.pick(&[1, 2, 65_535, 65_536, 65_537, 200_000]).min(CHUNK - pos);
    if rng.once_in(6) {
        return zeros(rng, pos, len);
    }
    let off = near_edge(rng).min(CHUNK - len);
    let size = (off + len + rng.pick(&[0, 1, 65_535, 65_536])).min(CHUNK);
    Record::new(pos, some_id(rng), size, off, len)
}

fn near_edge(rng: &mut Rng) -> u64 {
    let block = 65_536 << rng.below(9);
    let edge = block * rng.below(CHUNK / block + 1);
    (edge + rng.below(5)).saturating_sub(2)
}

/// Each record inside the one before it.
fn nested(rng: &mut Rng, i: u64, count: u64) -> Record {
    let len = 3 * (count - i);
    if rng.once_in(5) {
        return zeros(rng, i, len);
    }
    Record::new(i, 1 + i % 3, 10_000, 2 * i, len)
}

/// One slice under single bytes: about twice as many runs as records.
fn comb(rng: &mut Rng, i: u64, count: u64) -> Record {
    if i == 0 {
        let len = 2 * count + rng.below(3);
        return Record::new(0, 1, CHUNK, 0, len.saturating_sub(2));
    }
    if rng.once_in(50) {
        return Record::new(2 * i - 1, 1, CHUNK, 2 * i - 1, 1);
    }
    zeros(rng, 2 * i - 1, 1)
}
