//! A store of objects and the copying of a plan, for the third demand.

use std::collections::HashMap;

use crate::limits::PIECE;
use crate::plan::location_of;
use crate::runs::Step;
use crate::{source_at, Location, Piece, Record, Source};

/// The location of one byte in a store: id, block, block length, place in block.
pub type Key = (u64, u64, u64, u64);

/// One byte for each key: those set, and for all others one that the seed decides.
#[derive(Clone, Debug)]
pub struct Store {
    seed: u64,
    set: HashMap<Key, u8>,
}

impl Store {
    pub fn new(seed: u64) -> Store {
        Store { seed, set: HashMap::new() }
    }

    pub fn byte(&self, key: Key) -> u8 {
        self.set.get(&key).copied().unwrap_or_else(|| scrambled(self.seed, key))
    }

    /// The byte that a list reads at a position of the chunk.
    pub fn read(&self, records: &[Record], block_size: u64, position: u64) -> u8 {
        self.at(location_of(source_at(records, position), block_size))
    }

    fn at(&self, location: Location) -> u8 {
        match location {
            Location::Zeros => 0,
            Location::Object { id, block, length, at } => self.byte((id, block, length, at)),
        }
    }

    /// The store after copying: every piece reads the store before.
    pub fn copied(&self, plan: &[u8], block_size: u64, new_id: u64, size: u64) -> Store {
        let mut after = self.clone();
        for piece in plan.chunks(PIECE).map(Piece::from_bytes) {
            for j in 0..piece.len {
                let new = Source::Byte { id: new_id, size, off: piece.place + j };
                let Location::Object { id, block, length, at } = location_of(new, block_size)
                else {
                    unreachable!("a slice byte has an object");
                };
                after.set.insert((id, block, length, at), self.at(piece.from.after(j)));
            }
        }
        after
    }
}

/// Some byte for each key; any spread will do.
fn scrambled(seed: u64, key: Key) -> u8 {
    let mut sum = seed;
    for number in [key.0, key.1, key.2, key.3] {
        sum = (sum ^ number).wrapping_mul(0x9e37_79b9_7f4a_7c15);
        sum ^= sum >> 29;
    }
    (sum >> 32) as u8
}
