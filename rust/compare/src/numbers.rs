//! Numbers that calls take: mostly sensible, often at an edge, sometimes far off.

use second::limits::{CHUNK, INDEX_MAX, RECORD};
use second::Record;

use rng::Rng;

/// A number of any width in bits.
pub fn any(rng: &mut Rng) -> u64 {
    rng.u64() >> rng.below(64)
}

/// Numbers that look small once cut to 32 bits.
fn cut_to_small(rng: &mut Rng) -> u64 {
    (1 << (32 + rng.below(32))) + rng.below(100)
}

pub fn chunk_len(rng: &mut Rng) -> u64 {
    match rng.below(16) {
        0 => 0,
        1 => CHUNK + 1 + rng.below(2),
        2 => any(rng),
        3 => cut_to_small(rng),
        4 | 5 => rng.below(CHUNK + 1),
        6..=9 => rng.below(200),
        _ => CHUNK,
    }
}

pub fn block_size(rng: &mut Rng) -> u64 {
    match rng.below(24) {
        0 => any(rng),
        1 => rng.pick(&[0, 1, 65_535, 65_537, 32_768, 33_554_432, 196_608, 1 << 63, u64::MAX]),
        2 => (1 << 32) + (65_536 << rng.below(9)),
        3..=11 => 65_536,
        _ => 65_536 << rng.below(9),
    }
}

/// A position near a boundary of the list, or anywhere.
pub fn position(rng: &mut Rng, list: &[u8]) -> u64 {
    let records = (list.len() / RECORD) as u64;
    match rng.below(8) {
        0 => any(rng),
        1 => rng.pick(&[0, CHUNK - 1, CHUNK, CHUNK + 1, u64::MAX]),
        2 => cut_to_small(rng),
        3..=5 if records > 0 => {
            let at = rng.below(records) as usize * RECORD;
            let record = Record::from_bytes(&list[at..at + RECORD]);
            let edge = if rng.once_in(2) { record.pos } else { record.end() };
            (edge + rng.below(5)).saturating_sub(2)
        }
        _ => rng.below(200),
    }
}

pub fn count(rng: &mut Rng, list: &[u8]) -> u64 {
    match rng.below(4) {
        0 => CHUNK,
        1 => rng.below(100),
        _ => position(rng, list),
    }
}

/// How many first records to compact.
pub fn first_records(rng: &mut Rng, list: &[u8]) -> u64 {
    let records = (list.len() / RECORD) as u64;
    match rng.below(12) {
        0 => records + 1,
        1 => any(rng),
        2 => (1 << 32) + rng.below(records + 1),
        3..=5 => records,
        _ => rng.below(records + 1),
    }
}

/// A new slice number: mostly one that the list doesn't name.
pub fn new_id(rng: &mut Rng, list: &[u8]) -> u64 {
    let records = (list.len() / RECORD) as u64;
    match rng.below(12) {
        0 => 0,
        1 | 2 if records > 0 => {
            let at = rng.below(records) as usize * RECORD;
            let id = Record::from_bytes(&list[at..at + RECORD]).id;
            // Half of an id is another id.
            if rng.once_in(3) {
                id ^ (1 << 40)
            } else {
                id
            }
        }
        3 => any(rng),
        _ => 1_000_000 + rng.below(1_000_000),
    }
}

/// A slice number for names, often where its decimal digits or quotients change.
pub fn id(rng: &mut Rng) -> u64 {
    match rng.below(6) {
        0 => rng.below(3),
        1 => {
            let power = 10u64.pow(rng.below(20) as u32);
            (power + rng.below(3)).saturating_sub(1)
        }
        2 => u64::MAX - rng.below(3),
        3 => rng.below(2_000_000_000),
        _ => any(rng),
    }
}

pub fn block(rng: &mut Rng) -> u64 {
    match rng.below(24) {
        0 => 1_022 + rng.below(4),
        1 => any(rng),
        2 => cut_to_small(rng),
        _ => rng.below(1_024),
    }
}

pub fn block_length(rng: &mut Rng) -> u64 {
    match rng.below(24) {
        0 => 16_777_215 + rng.below(4),
        1 => any(rng),
        2 => cut_to_small(rng),
        3 => rng.below(3),
        _ => 1 + rng.below(16_777_216),
    }
}

/// The index that pieces carry: mostly one of 32 bits.
pub fn chunk_index(rng: &mut Rng) -> u64 {
    match rng.below(24) {
        0..=3 => index(rng),
        4 | 5 => INDEX_MAX,
        _ => rng.below(1 << 32) >> rng.below(32),
    }
}

pub fn index(rng: &mut Rng) -> u64 {
    match rng.below(8) {
        0 => 4_294_967_294 + rng.below(4),
        1 => any(rng),
        2 => cut_to_small(rng),
        _ => rng.below(1 << 32) >> rng.below(32),
    }
}
