//! Lists and plans as the requirements print them.
#![allow(dead_code)]

use ezumokarin::{pieces, Location, Piece, Record};

const MIB: u32 = 1_048_576;

/// pos, id, size, off, len.
pub type Row = (u32, u64, u32, u32, u32);

pub fn list(rows: &[Row]) -> Vec<u8> {
    let record = |&(pos, id, size, off, len): &Row| Record { pos, id, size, off, len }.to_bytes();
    rows.iter().flat_map(record).collect()
}

/// A list whose rows have all but their ids in MiB.
pub fn list_in_mib(rows: &[Row]) -> Vec<u8> {
    let mib = |r: &Row| (r.0 * MIB, r.1, r.2 * MIB, r.3 * MIB, r.4 * MIB);
    list(&rows.iter().map(mib).collect::<Vec<_>>())
}

/// The list of three slices in document 000.
pub fn list_of_000() -> Vec<u8> {
    list_in_mib(&[(10, 10, 30, 0, 30), (20, 11, 16, 0, 16), (16, 12, 10, 0, 10)])
}

/// Bytes of single slices, each behind an uncovered byte.
pub fn apart(bytes: u32) -> Vec<Row> {
    (0..bytes).map(|i| (2 * i + 1, 7 + u64::from(i), 1, 0, 1)).collect()
}

/// Lists of chunks, one behind the other, and their lengths.
pub fn joined(lists: &[Vec<u8>]) -> (Vec<u8>, Vec<u64>) {
    (lists.concat(), lists.iter().map(|list| list.len() as u64).collect())
}

/// The pieces of a plan, a line each.
pub fn lines(plan: &[u8]) -> String {
    pieces(plan).map(line).collect()
}

/// A piece with its fields in the order of their bytes: mark, chunk index, place, id, block, block
/// length, place in block, length.
pub fn line(Piece { index, place, from, len }: Piece) -> String {
    match from {
        Location::Zeros => format!("RZ {index} {place} 0 0 0 0 {len}\n"),
        Location::Object { id, block, length, at } => {
            format!("RB {index} {place} {id} {block} {length} {at} {len}\n")
        }
    }
}
