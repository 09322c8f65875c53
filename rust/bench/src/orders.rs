//! Five orders of ids, for the check.

use crate::record::Record;
use rng::Rng;

/// Where all bits but the highest are alike, the longest searches are made.
pub const ORDERS: [&str; 5] =
    ["rising", "rising but for the first", "repeated", "random", "alike in 53 bits"];

/// A list whose ids stand in that order, so many records.
pub fn ordered(order: &str, records: usize) -> Vec<u8> {
    let mut rng = Rng::new(records as u64);
    let count = records as u64;
    let id = |i: u64| match order {
        "rising" => 1_000_000 + i,
        "rising but for the first" => 1_000_000 + (i + count - 1) % count,
        "repeated" => 1_000_000 + rng.below(count / 3 + 1),
        "random" => rng.u64() | 1,
        _ => (1 + i * 7_919 % count) << 53,
    };
    let record = |id| Record { pos: 0, id, size: 9, off: 0, len: 9 };
    (0..count).map(id).flat_map(|id| record(id).to_bytes()).collect()
}
