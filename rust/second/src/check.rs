//! Refusals 7, 21 of an index, 8, 1 to 6 and 16: what is wrong with the inputs of a call.

use crate::limits::{BLOCK_SIZE_MAX, BLOCK_SIZE_MIN, CHUNK, INDEX_MAX, LIST_RECORDS, RECORD};
use crate::{Answer, Record, Refusal};

/// How many records an acceptable list has.
pub fn check(list: &[u8]) -> Answer {
    Ok(records(list)?.len())
}

/// Refusal 7.
pub fn chunk_length(length: u64) -> Result<(), Refusal> {
    if length > CHUNK {
        return Err(Refusal::of(7));
    }
    Ok(())
}

/// Refusal 21 of a single chunk.
pub fn index(index: u64) -> Result<(), Refusal> {
    if index > INDEX_MAX {
        return Err(Refusal::of(21));
    }
    Ok(())
}

/// Refusal 8.
pub fn block_size(size: u64) -> Result<(), Refusal> {
    if !size.is_power_of_two() || !(BLOCK_SIZE_MIN..=BLOCK_SIZE_MAX).contains(&size) {
        return Err(Refusal::of(8));
    }
    Ok(())
}

/// The records of a list, or refusals 1, 2, then 3 to 6 of the first bad record, then 16.
pub fn records(list: &[u8]) -> Result<Vec<Record>, Refusal> {
    if !list.len().is_multiple_of(RECORD) {
        return Err(Refusal::of(1));
    }
    if list.len() / RECORD > LIST_RECORDS {
        return Err(Refusal::of(2));
    }
    let records: Vec<Record> = list.chunks(RECORD).map(Record::from_bytes).collect();
    for (place, record) in records.iter().enumerate() {
        if let Some(number) = fault(record) {
            return Err(Refusal::at(number, place));
        }
    }
    for (place, record) in records.iter().enumerate() {
        if records[..place].iter().any(|earlier| two_sizes(earlier, record)) {
            return Err(Refusal::at(16, place));
        }
    }
    Ok(records)
}

/// One slice, and another size.
fn two_sizes(earlier: &Record, record: &Record) -> bool {
    record.id != 0 && earlier.id == record.id && earlier.size != record.size
}

/// The first of refusals 3 to 6 that fits a record.
fn fault(record: &Record) -> Option<u64> {
    if record.pos + record.len > CHUNK {
        return Some(3);
    }
    if record.size > CHUNK {
        return Some(4);
    }
    if record.id == 0 && (record.off != 0 || ![0, record.len].contains(&record.size)) {
        return Some(5);
    }
    if record.id != 0 && record.off + record.len > record.size {
        return Some(6);
    }
    None
}
