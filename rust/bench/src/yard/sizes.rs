//! Refusal 16 where ids don't rise: a table of the ids seen.

use crate::record::{four, id, RecordBytes, LIST_RECORDS};

const SLOTS: usize = 2 * LIST_RECORDS;
/// Spreads ids over the table: 2 to the 64 divided by the golden ratio.
const SPREAD: u64 = 0x9e37_79b9_7f4a_7c15;

/// Each slot has the number of a record, counted from 1, or 0.
pub struct Sizes([u16; SLOTS]);

impl Sizes {
    pub fn new() -> Sizes {
        Sizes([0; SLOTS])
    }

    /// Whether all records of a slice give it one size. At least half of the slots stay free.
    pub fn agree(&mut self, records: &[RecordBytes]) -> bool {
        let bits = (2 * records.len()).next_power_of_two().trailing_zeros().max(1);
        self.0[..1 << bits].fill(0);
        records.iter().enumerate().all(|(i, bytes)| self.agrees(records, i, bytes, bits))
    }

    fn agrees(
        &mut self,
        records: &[RecordBytes],
        i: usize,
        bytes: &RecordBytes,
        bits: u32,
    ) -> bool {
        let id_here = id(bytes);
        if id_here == 0 {
            return true;
        }
        let mut slot = (id_here.wrapping_mul(SPREAD) >> (64 - bits)) as usize;
        loop {
            let seen = self.0[slot % SLOTS];
            if seen == 0 {
                self.0[slot % SLOTS] = i as u16 + 1;
                return true;
            }
            let other = &records[usize::from(seen) - 1];
            if id(other) == id_here {
                return four(other, 12) == four(bytes, 12);
            }
            slot = (slot + 1) & ((1 << bits) - 1);
        }
    }
}
