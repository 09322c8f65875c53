//! Random lists, and the positions at which to look at them.

use rng::Rng;
use second::Record;

use super::{list, Row, CHUNK};

pub const BLOCK_SIZE: u64 = 65_536;
/// Positions reach over two edges of blocks.
pub const END: u64 = 150_000;

/// A list that the calls take: each slice has one size.
pub fn some_list(random: &mut Rng, most: u64, ids: u64) -> Vec<u8> {
    let mut rows = some_rows(random, most, ids);
    for id in 1..=ids {
        let of_slice = |row: &&mut Row| row.1 == id;
        let size = rows.iter_mut().filter(of_slice).map(|row| row.2).max();
        rows.iter_mut().filter(of_slice).for_each(|row| row.2 = size.unwrap_or(row.2));
    }
    list(&rows)
}

/// Rows that pass 3 to 6, with a slice in several sizes.
pub fn some_rows(random: &mut Rng, most: u64, ids: u64) -> Vec<Row> {
    (0..random.below(most + 1)).map(|_| some_row(random, ids)).collect()
}

fn some_row(random: &mut Rng, ids: u64) -> Row {
    let pos = near_an_edge(random);
    let len = random.below(40_000) >> random.below(16);
    let id = random.below(ids + 1);
    if id == 0 {
        return (pos, 0, zeros_size(random, len), 0, len);
    }
    let off = near_an_edge(random);
    (pos, id, off + len + random.below(3), off, len)
}

fn near_an_edge(random: &mut Rng) -> u64 {
    match random.below(3) {
        0 => random.below(2) * BLOCK_SIZE + 65_530 + random.below(12),
        1 => random.below(50),
        _ => random.below(100_000),
    }
}

/// Positions where something can change, and some others.
pub fn positions(lists: &[&[Record]], random: &mut Rng) -> Vec<u64> {
    let mut all: Vec<u64> = (0..200).map(|_| random.below(END)).collect();
    for record in lists.iter().copied().flatten() {
        for edge in [record.pos, record.end(), record.pos + BLOCK_SIZE, record.pos + 2 * BLOCK_SIZE]
        {
            all.extend(edge.saturating_sub(2)..edge + 2);
        }
    }
    all.push(CHUNK - 1);
    all.retain(|position| *position < CHUNK);
    all
}

/// A zero record has one of two sizes.
pub fn zeros_size(random: &mut Rng, len: u64) -> u64 {
    random.pick(&[0, len])
}
