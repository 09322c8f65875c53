//! Plans of more pieces than a judge may want to keep, mostly in no order.

use second::limits::CHUNK;

use super::row::Row;
use super::wrong::field;
use super::{cut, ours, shuffle};
use crate::call::Call;
use rng::Rng;

/// Copies of one piece.
const COPIES: u64 = 4_100;

/// A read that can be cut into thousands of short pieces.
pub fn widen(rng: &mut Rng, planned: &mut Call) {
    if let Call::FilePlan { file, start, count, .. } = planned {
        file.file_len = u64::MAX;
        *start = rng.pick(&[0, CHUNK - 3_000]) + rng.below(20);
        *count = 2_100 + rng.below(6_000);
    }
}

pub fn plan(rng: &mut Rng, planned: &Call) -> Vec<u8> {
    let longest = rng.pick(&[1, 1, 2]);
    let mut rows = cut(rng, &ours(planned), 10_000, longest);
    held(rng, &mut rows);
    if !rng.once_in(4) {
        shuffle(rng, &mut rows);
    }
    if rng.once_in(4) && !rows.is_empty() {
        let which = behind_most(rng, &rows);
        field(rng, &mut rows[which]);
    }
    rows.concat()
}

/// One is dropped or stands there again, now and then far more often than there are pieces.
fn held(rng: &mut Rng, rows: &mut Vec<Row>) {
    let which = behind_most(rng, rows);
    match rng.below(6) {
        0 => drop(rows.remove(which)),
        1 => rows.push(rows[which]),
        2 => rows.extend(vec![rows[which]; (COPIES + rng.below(100)) as usize]),
        _ => {}
    }
}

/// Often the number of one of the last pieces.
fn behind_most(rng: &mut Rng, rows: &[Row]) -> usize {
    let count = rows.len() as u64;
    let from = if rng.once_in(2) { 0 } else { count - count / 8 - 1 };
    (from + rng.below(count - from)) as usize
}
