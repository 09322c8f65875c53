//! Lists of zeros with a hole behind each: the plan of the whole chunk is one piece.

use crate::record::{Record, CHUNK};
use crate::shuffle::shuffle;
use rng::Rng;

/// How the records stand in the list.
pub const TURNS: [&str; 2] = ["zeros and holes, rising", "zeros and holes, any order"];

/// So many lists, each of so many records.
pub fn zeros(turn: &str, records: usize, lists: usize) -> Vec<Vec<u8>> {
    let mut rng = Rng::new(records as u64);
    (0..lists).map(|_| list(turn, records as u32, &mut rng)).collect()
}

fn list(turn: &str, records: u32, rng: &mut Rng) -> Vec<u8> {
    let len = CHUNK / (2 * records);
    let mut positions: Vec<u32> = (0..records).map(|i| 2 * i * len).collect();
    if turn == TURNS[1] {
        shuffle(&mut positions, rng);
    }
    let record = |pos| Record { pos, id: 0, size: 0, off: 0, len };
    positions.into_iter().flat_map(|pos| record(pos).to_bytes()).collect()
}
