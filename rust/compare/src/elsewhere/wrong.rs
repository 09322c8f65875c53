//! Faults of one piece: its mark and its numbers.

use super::row::{add, get, is_zeros, set, Row};
use super::row::{AT, BLOCK, ID, INDEX, LEN, LENGTH, OBJECT, PLACE};
use rng::Rng;

/// Another number in the place of one.
pub fn field(rng: &mut Rng, row: &mut Row) {
    let at = rng.pick(&[INDEX, PLACE, ID, ID + 4, BLOCK, LENGTH, AT, LEN]);
    let old = get(row, at);
    let edges =
        [0, 1, old.wrapping_add(1), old.wrapping_sub(1), old ^ 1 << rng.below(32), u32::MAX];
    set(row, at, rng.pick(&edges));
}

/// One more or one less in a number of an object; zeros stay.
pub fn object(rng: &mut Rng, row: &mut Row) {
    if !is_zeros(row) {
        let at = rng.pick(&[ID, ID + 4, BLOCK, LENGTH, AT]);
        add(row, at, rng.pick(&[1, u32::MAX]));
    }
}

/// Some bytes longer: into the next piece, past the read's end, or past 2^32.
pub fn prolong(rng: &mut Rng, row: &mut Row) {
    let more = match rng.below(4) {
        // With the place it would wrap to a small number.
        0 => get(row, PLACE).wrapping_neg().wrapping_sub(get(row, LEN)).wrapping_add(1),
        1 => rng.below(1 << 20) as u32,
        _ => 1 + rng.below(3) as u32,
    };
    add(row, LEN, more);
}

/// None of the two marks.
pub fn mark(rng: &mut Rng, row: &mut Row) {
    let marks = [*b"RA", *b"rb", *b"Rb", *b"BR", *b"ZR", *b"R\0", *b"QZ", [0, 0], [255, 255]];
    row[..2].copy_from_slice(&rng.pick(&marks));
}

/// The other mark: with the numbers as they are, or with those that it should have.
pub fn exchange(rng: &mut Rng, rows: &mut [Row], which: usize) {
    let other = rows[rng.below(rows.len() as u64) as usize];
    let row = &mut rows[which];
    let was_zeros = is_zeros(row);
    row[..2].copy_from_slice(if was_zeros { b"RB" } else { b"RZ" });
    if rng.once_in(3) {
        return;
    }
    if was_zeros {
        row[OBJECT].copy_from_slice(&other[OBJECT]);
    } else {
        row[OBJECT].fill(0);
    }
}

/// A number in zeros; an object becomes another.
pub fn of_object(rng: &mut Rng, row: &mut Row) {
    let at = rng.pick(&[ID, ID + 4, BLOCK, LENGTH, AT]);
    set(row, at, 1 << rng.below(32));
}
