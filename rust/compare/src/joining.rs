//! Lists of which one piece joins the parts of many records: zeros and holes in turn, or a slice in
//! several records.

use second::Record;

use rng::Rng;

const SIZE: u64 = 200_000;
/// The smallest block size.
const BLOCK: u64 = 65_536;

pub fn records(rng: &mut Rng, count: u64) -> Vec<Record> {
    let mut records = if rng.once_in(2) { zeros_and_holes(rng, count) } else { split(rng, count) };
    shuffled(rng, &mut records);
    records
}

fn zeros_and_holes(rng: &mut Rng, count: u64) -> Vec<Record> {
    let mut pos = rng.below(4);
    let mut next = || {
        let len = 1 + rng.below(3);
        let zeros = Record::new(pos, 0, rng.pick(&[0, len]), 0, len);
        pos += len + 1 + rng.below(3);
        zeros
    };
    (0..count).map(|_| next()).collect()
}

/// One slice from end to end, often over the end of a block; now and then a byte of it is left out.
fn split(rng: &mut Rng, count: u64) -> Vec<Record> {
    let mut pos = rng.below(20);
    let mut off = rng.pick(&[0, BLOCK - 60]) + rng.below(60);
    let id = 1 + rng.below(9);
    let mut next = || {
        let len = 1 + rng.below(5);
        let part = Record::new(pos, id, SIZE, off, len);
        pos += len;
        off += len + u64::from(rng.once_in(12));
        part
    };
    (0..count).map(|_| next()).collect()
}

/// None of them lies over another, so that any order covers the same.
fn shuffled(rng: &mut Rng, records: &mut [Record]) {
    for last in (1..records.len()).rev() {
        records.swap(last, rng.below(last as u64 + 1) as usize);
    }
}
