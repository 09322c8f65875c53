//! Faults of plans of few pieces. They stand in order of their places here, so that the next one is
//! the one behind.

use super::row::{add, get, set, skip, zeros, Row, INDEX, LEN};
use super::wrong::{exchange, field, mark, object, of_object, prolong};
use rng::Rng;

/// Spoils a plan in one way.
pub fn one(rng: &mut Rng, rows: &mut Vec<Row>) {
    if rows.is_empty() {
        rows.push(zeros(rng.below(3) as u32, 1 + rng.below(3)));
    }
    let last = rows.len() as u64 - 1;
    let which = if rng.once_in(6) { last } else { rng.below(last + 1) } as usize;
    match rng.below(17) {
        0 | 1 => drop(rows.remove(which)),
        2 => insert(rng, rows, rows[which]),
        3 => overlap(rng, rows, which),
        4 | 5 => field(rng, &mut rows[which]),
        6 => prolong(rng, &mut rows[which]),
        7 => join(rows, which),
        8 => join(rows, before_an_edge(rows).unwrap_or(which)),
        9 => skip(&mut rows[which], 1_u32.wrapping_neg()),
        10 => mark(rng, &mut rows[which]),
        11 => exchange(rng, rows, which),
        12 => of_object(rng, &mut rows[which]),
        13 => set(&mut rows[which], LEN, 0),
        14 => empty(rng, rows, which),
        15 => replace(rng, rows, which),
        _ => object(rng, &mut rows[which]),
    }
}

fn insert(rng: &mut Rng, rows: &mut Vec<Row>, row: Row) {
    let to = rng.below(rows.len() as u64 + 1) as usize;
    rows.insert(to, row);
}

/// A part of a piece once more.
fn overlap(rng: &mut Rng, rows: &mut Vec<Row>, which: usize) {
    let mut part = rows[which];
    let len = get(&part, LEN);
    if len > 1 {
        skip(&mut part, rng.below(len.into()) as u32);
        let left = get(&part, LEN);
        set(&mut part, LEN, 1 + rng.below(left.into()) as u32);
    }
    insert(rng, rows, part);
}

/// Two pieces as one: each byte is still in one piece.
pub fn join(rows: &mut Vec<Row>, which: usize) {
    if which + 1 < rows.len() {
        let behind = rows.remove(which + 1);
        add(&mut rows[which], LEN, get(&behind, LEN));
    }
}

/// The last piece of a chunk, if there is one behind it.
fn before_an_edge(rows: &[Row]) -> Option<usize> {
    rows.windows(2).position(|pair| get(&pair[0], INDEX) != get(&pair[1], INDEX))
}

/// One as long as it in its place: the sum of the lengths stays.
fn replace(rng: &mut Rng, rows: &mut [Row], which: usize) {
    let as_long = |row: &&Row| get(row, LEN) == get(&rows[which], LEN);
    let others: Vec<Row> = rows.iter().filter(as_long).copied().collect();
    rows[which] = rng.pick(&others);
}

/// An empty piece beside the others.
fn empty(rng: &mut Rng, rows: &mut Vec<Row>, which: usize) {
    let mut row = rows[which];
    if rng.once_in(2) {
        let len = get(&row, LEN);
        skip(&mut row, len);
    }
    set(&mut row, LEN, 0);
    insert(rng, rows, row);
}
