//! What the tests share: lists from tuples, and refusals in few words.
#![allow(dead_code)]

pub mod files;
pub mod judged;
pub mod random;

use second::{Record, Refusal, Source};

pub const MIB: u64 = 1_048_576;
pub const CHUNK: u64 = 67_108_864;
pub const BLOCK: u64 = 4_194_304;

/// pos, id, size, off, len
pub type Row = (u64, u64, u64, u64, u64);

pub fn list(rows: &[Row]) -> Vec<u8> {
    rows.iter().flat_map(|r| Record::new(r.0, r.1, r.2, r.3, r.4).to_bytes()).collect()
}

pub fn rows(bytes: &[u8]) -> Vec<Row> {
    let row = |r: Record| (r.pos, r.id, r.size, r.off, r.len);
    bytes.chunks(24).map(Record::from_bytes).map(row).collect()
}

/// The records of a list, unchecked: what the definitions speak of.
pub fn decoded(bytes: &[u8]) -> Vec<Record> {
    bytes.chunks(24).map(Record::from_bytes).collect()
}

/// The numbers of the segments that hold the position, told by looking at each.
pub fn holders(row: &[Record], position: u64) -> Vec<u64> {
    let holds = |record: &Record| (record.pos..record.pos + record.len).contains(&position);
    (0..).zip(row).filter(|(_, record)| holds(record)).map(|(number, _)| number).collect()
}

/// A source laid over another.
pub fn over(upper: Source, lower: Source) -> Source {
    if upper == Source::Nothing {
        lower
    } else {
        upper
    }
}

pub fn no(number: u64) -> Refusal {
    Refusal { number, place: 0 }
}

pub fn no_at(number: u64, place: u64) -> Refusal {
    Refusal { number, place }
}

/// Rows that have all but their ids in MiB.
pub fn in_mib<const N: usize>(rows: [Row; N]) -> [Row; N] {
    rows.map(|r| (r.0 * MIB, r.1, r.2 * MIB, r.3 * MIB, r.4 * MIB))
}

/// The list of three slices in document 000.
pub fn list_of_000() -> Vec<u8> {
    list(&in_mib([(10, 10, 30, 0, 30), (20, 11, 16, 0, 16), (16, 12, 10, 0, 10)]))
}

/// The view of it, which 000 prints as the new list.
pub fn view_of_000() -> [Row; 6] {
    in_mib([
        (0, 0, 10, 0, 10),
        (10, 10, 30, 0, 6),
        (16, 12, 10, 0, 10),
        (26, 11, 16, 6, 10),
        (36, 10, 30, 26, 4),
        (40, 0, 24, 0, 24),
    ])
}
