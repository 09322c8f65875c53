//! Lists that are refused, told by the number that they are refused with.

use second::limits::{CHUNK, LIST_RECORDS, RECORD};
use second::Record;

use rng::Rng;

/// The refusals of a list.
pub const NUMBERS: [u64; 7] = [1, 2, 3, 4, 5, 6, 16];

/// A slice that no other list names.
const SLICE: u64 = 7_000_000;

/// Spoils an accepted list, so that it is refused with this number.
pub fn list(rng: &mut Rng, list: &mut Vec<u8>, number: u64) {
    match number {
        1 => odd(rng, list),
        2 => list.resize((LIST_RECORDS + 1 + rng.below(3) as usize) * RECORD, 0),
        16 => {
            let first = insert(rng, list, 0, Record::new(0, SLICE, 10, 0, 5));
            let again = Record::new(0, SLICE, 11, 0, rng.pick(&[0, 5]));
            insert(rng, list, first + 1, again);
        }
        _ => {
            let record = bad(rng, number);
            insert(rng, list, 0, record);
        }
    }
}

/// Some bytes of a record too many, or too few.
fn odd(rng: &mut Rng, list: &mut Vec<u8>) {
    let bytes = 1 + rng.below(RECORD as u64 - 1);
    if list.is_empty() || rng.once_in(2) {
        list.extend(rng.bytes(bytes));
    } else {
        list.truncate(list.len() - bytes as usize);
    }
}

/// A record that is refused so, one beyond the edge or further.
fn bad(rng: &mut Rng, number: u64) -> Record {
    let more = 1 + (rng.below(1 << 20) >> rng.below(20));
    match number {
        3 => Record::new(CHUNK - 4 + more, SLICE, 10, 0, 4),
        4 => Record::new(0, SLICE, CHUNK + more, 0, 1),
        5 => rng.pick(&[Record::new(0, 0, 8 + more, 0, 8), Record::new(0, 0, 0, more, 8)]),
        _ => Record::new(0, SLICE, 10, 3 + more, 7),
    }
}

/// Puts a record at some place, counted from `from` on at the earliest; its place.
fn insert(rng: &mut Rng, list: &mut Vec<u8>, from: usize, record: Record) -> usize {
    let place = from + rng.below((list.len() / RECORD - from + 1) as u64) as usize;
    let at = place * RECORD;
    list.splice(at..at, record.to_bytes());
    place
}
