//! What `find` is asked: views, whole or spoilt, and rows that are none; numbers of segments, and
//! positions.

use second::limits::{CHUNK, LIST_RECORDS, RECORD};
use second::Record;

use crate::{lists, mutate, numbers};
use rng::Rng;

/// Positions and lengths that meet about 2^32.
const HIGH: u64 = 1 << 32;

/// Mostly a view. A list is a row that may overlap and need not rise.
pub fn row(rng: &mut Rng) -> Vec<u8> {
    let mut row = match rng.below(10) {
        0 => lists::sound(rng),
        1 => high(rng),
        2 if rng.once_in(4) => long(rng),
        _ => view(rng),
    };
    mutate::view(rng, &mut row);
    row
}

/// The second program's view of a list; the list itself where it has none.
fn view(rng: &mut Rng) -> Vec<u8> {
    let list = lists::sound(rng);
    second::view_bytes(&list, numbers::chunk_len(rng)).unwrap_or(list)
}

/// A view with many segments, and now and then the longest that a view can be.
fn long(rng: &mut Rng) -> Vec<u8> {
    let most = 2 * LIST_RECORDS as u64 - 1;
    let bytes = if rng.once_in(8) { most } else { 100 + rng.below(500) };
    let comb = lists::combed(7, bytes);
    second::view_of(&comb, CHUNK)
}

/// Rising segments up to the highest positions that four bytes hold; the last ends past 2^32.
fn high(rng: &mut Rng) -> Vec<u8> {
    let step = 1 + rng.below(1_000);
    let count = 1 + rng.below(8);
    let segment = |i: u64| {
        let len = if i == 1 { step + rng.below(HIGH - step) } else { step };
        Record::new(HIGH - i * step, i, 0, 0, len).to_bytes()
    };
    (1..=count).rev().flat_map(segment).collect()
}

/// The number of all segments, one that is too low or too high, or a count of bytes.
pub fn segments(rng: &mut Rng, row: &[u8]) -> u64 {
    let all = (row.len() / RECORD) as u64;
    match rng.below(16) {
        0 => all + 1,
        1 => row.len() as u64,
        2 => u64::MAX - rng.below(2),
        3 => numbers::any(rng),
        // Cut to 32 bits it would be too low.
        4 => (1 << (32 + rng.below(32))) + rng.below(all + 1),
        5 => all.saturating_sub(1),
        6 | 7 => rng.below(all + 1),
        _ => all,
    }
}

/// A position at an edge of a segment or inside it, at or past the end, or anywhere.
pub fn position(rng: &mut Rng, row: &[u8]) -> u64 {
    let all = (row.len() / RECORD) as u64;
    if all == 0 || rng.once_in(6) {
        return numbers::position(rng, row);
    }
    let which = [rng.below(all), 0, all - 1][rng.below(8).saturating_sub(5) as usize];
    let at = which as usize * RECORD;
    let segment = Record::from_bytes(&row[at..at + RECORD]);
    match rng.below(12) {
        0 => segment.pos.saturating_sub(1),
        1 | 2 => segment.pos,
        3 | 4 => segment.end().saturating_sub(1),
        5 => segment.end(),
        6 => segment.end() + rng.below(3),
        // Cut to 32 bits it would lie in the segment.
        7 => segment.pos + (1 << (32 + rng.below(31))),
        8 => u64::MAX - rng.below(2),
        _ => segment.pos + rng.below(segment.len.max(1)),
    }
}
