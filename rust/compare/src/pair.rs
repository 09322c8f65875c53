//! An older list and a newer one, and how they stand in memory: both are only read, so they may be
//! the same memory or overlap.

use std::ops::Range;

#[derive(Clone, Debug)]
pub enum Pair {
    /// Each in memory of its own.
    Apart { older: Vec<u8>, newer: Vec<u8> },
    /// Both in one memory, at these places.
    Within { memory: Vec<u8>, older: Range<usize>, newer: Range<usize> },
}

impl Pair {
    pub fn apart(older: &[u8], newer: &[u8]) -> Pair {
        Pair::Apart { older: older.to_vec(), newer: newer.to_vec() }
    }

    pub fn within(memory: &[u8], older: Range<usize>, newer: Range<usize>) -> Pair {
        Pair::Within { memory: memory.to_vec(), older, newer }
    }

    pub fn older(&self) -> &[u8] {
        match self {
            Pair::Apart { older, .. } => older,
            Pair::Within { memory, older, .. } => &memory[older.clone()],
        }
    }

    pub fn newer(&self) -> &[u8] {
        match self {
            Pair::Apart { newer, .. } => newer,
            Pair::Within { memory, newer, .. } => &memory[newer.clone()],
        }
    }
}
