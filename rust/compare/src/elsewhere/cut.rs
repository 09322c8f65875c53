//! Our pieces in shorter ones, and in another order.

use super::row::{get, rows, set, skip, Row, LEN};
use rng::Rng;

/// Cuts pieces from the front on, up to so many pieces in all; what is cut off is so long at most.
pub fn cut(rng: &mut Rng, plan: &[u8], most: usize, longest: u64) -> Vec<Row> {
    let pieces = rows(plan);
    let mut left = most.saturating_sub(pieces.len());
    let mut cut = Vec::new();
    for mut rest in pieces {
        while left > 0 && get(&rest, LEN) > 1 {
            let bytes = 1 + rng.below(longest.min(u64::from(get(&rest, LEN)) - 1)) as u32;
            let mut front = rest;
            set(&mut front, LEN, bytes);
            cut.push(front);
            skip(&mut rest, bytes);
            left -= 1;
        }
        cut.push(rest);
    }
    cut
}

pub fn shuffle<T>(rng: &mut Rng, rows: &mut [T]) {
    for last in (1..rows.len()).rev() {
        rows.swap(last, rng.below(last as u64 + 1) as usize);
    }
}
