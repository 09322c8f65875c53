//! Lists made to meet a set of refusals.

use second::limits::{CHUNK, LIST_RECORDS, RECORD, TIDIED_RECORDS};
use second::Record;

use super::Faults;
use crate::lists::combed;

/// How the bad records stand: rising, falling, or several faults in one record.
pub const VARIANTS: usize = 3;
/// An id that the list always names.
pub const FIRST_ID: u64 = 7;

/// A list that meets these refusals, and the refusal of its first bad record.
pub fn faulty_list(faults: Faults, variant: usize) -> (Vec<u8>, u64) {
    let mut records = if faults.has(11) { many_runs() } else { sound() };
    let bad = bad_records(faults, variant);
    let first = bad.first().map_or(0, |record| record.0);
    for (i, (_, record)) in bad.into_iter().enumerate() {
        records.insert(1 + i, record);
    }
    if faults.has(16) {
        // Before the bad records or behind them all, and in one variant empty.
        let at = [1, records.len(), records.len()][variant];
        records.insert(at, Record::new(0, FIRST_ID, 300_000, 0, [5, 5, 0][variant]));
    }
    let mut list: Vec<u8> = records.iter().flat_map(Record::to_bytes).collect();
    if faults.has(2) {
        list.resize((LIST_RECORDS + 1) * RECORD, 0);
    }
    if faults.has(1) {
        let odd = [1, 23, 12][variant];
        list.extend(vec![0; odd]);
    }
    (list, first)
}

fn sound() -> Vec<Record> {
    vec![
        Record::new(0, FIRST_ID, 200_000, 0, 200_000),
        Record::new(50, 0, 0, 0, 20),
        Record::new(60, 8, 90, 30, 60),
    ]
}

/// Tidied to a few records too many. The list itself is half as long, so that bad records can be
/// put into it.
fn many_runs() -> Vec<Record> {
    combed(FIRST_ID, TIDIED_RECORDS as u64 + 9)
}

/// Bad records with the refusal that each meets first.
fn bad_records(faults: Faults, variant: usize) -> Vec<(u64, Record)> {
    let mut wanted: Vec<u64> = (3..=6).filter(|number| faults.has(*number)).collect();
    match variant {
        0 => {}
        1 => wanted.reverse(),
        _ => return in_one(faults, wanted),
    }
    wanted.into_iter().map(|number| (number, one_fault(number))).collect()
}

fn one_fault(number: u64) -> Record {
    match number {
        3 => Record::new(CHUNK - 1, 9, 10, 0, 2),
        4 => Record::new(0, 9, CHUNK + 1, 0, 1),
        5 => Record::new(0, 0, 1, 0, 8),
        _ => Record::new(0, 9, 10, 4, 7),
    }
}

/// One record with all these faults; 5 and 6 exclude each other, and 5 is left out then.
fn in_one(faults: Faults, wanted: Vec<u64>) -> Vec<(u64, Record)> {
    let mut record = Record::new(0, 9, 10, 0, 1);
    if faults.has(5) && !faults.has(6) {
        record = Record::new(0, 0, 0, 1, 1);
    }
    if faults.has(3) {
        record.pos = CHUNK;
    }
    if faults.has(4) {
        record.size = CHUNK + 1;
    }
    if faults.has(6) {
        record.off = 4_294_967_295;
    }
    let met = |number: &u64| *number != 5 || !faults.has(6);
    let first = wanted.into_iter().find(met);
    first.map(|number| (number, record)).into_iter().collect()
}
