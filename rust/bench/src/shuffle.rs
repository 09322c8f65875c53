//! Any order.

use rng::Rng;

pub fn shuffle<T>(row: &mut [T], rng: &mut Rng) {
    for i in (1..row.len()).rev() {
        row.swap(i, rng.below(i as u64 + 1) as usize);
    }
}
