//! Seeking: in views at every edge, and in rows that are none.

use second::limits::{CHUNK, LIST_RECORDS, RECORD};
use second::Record;

use super::{list, three};
use crate::call::Call;

const MOST: u64 = u32::MAX as u64;

pub fn all() -> Vec<Call> {
    let views = [Vec::new(), view(&[], 5), view(&three(), CHUNK), view(&apart(), CHUNK)];
    [views.into_iter().flat_map(at_edges).collect(), no_views(), past_32_bits(), lengths()].concat()
}

fn view(list: &[u8], chunk_len: u64) -> Vec<u8> {
    second::view_bytes(list, chunk_len).expect("a view")
}

/// The longest list of single bytes, each behind an uncovered one: it has the longest view.
fn apart() -> Vec<u8> {
    let byte = |i| Record::new(2 * i + 1, 7 + i, 1, 0, 1).to_bytes();
    (0..LIST_RECORDS as u64).flat_map(byte).collect()
}

/// The first and the last position of some segments, the end, and what lies past it.
fn at_edges(view: Vec<u8>) -> Vec<Call> {
    let row: Vec<Record> = view.chunks(RECORD).map(Record::from_bytes).collect();
    let segments = row.len() as u64;
    let some = row.iter().step_by(1 + row.len() / 16).chain(row.last());
    let edges = some.flat_map(|record| [record.pos, record.end() - 1, record.end()]);
    let positions: Vec<u64> = edges.chain([0, CHUNK, CHUNK + 1, 1 << 32, u64::MAX]).collect();
    sought(&view, &[segments], &positions)
}

/// Every one of these numbers with every one of these positions.
fn sought(view: &[u8], numbers: &[u64], positions: &[u64]) -> Vec<Call> {
    let pairs = numbers.iter().flat_map(|number| positions.iter().map(move |at| (*number, *at)));
    pairs
        .map(|(segments, position)| Call::Find { view: view.to_vec(), segments, position })
        .collect()
}

/// Rows in other orders, with gaps, over each other, empty and doubled.
fn no_views() -> Vec<Call> {
    let rows: [&[(u64, u64)]; 6] = [
        &[(20, 5), (0, 5), (10, 5)],
        &[(10, 5), (5, 5), (0, 5)],
        &[(5, 5), (20, 5)],
        &[(0, 50), (10, 5), (12, 1)],
        &[(0, 5), (5, 0), (5, 5)],
        &[(0, 5), (0, 5)],
    ];
    let row = |row: &[(u64, u64)]| {
        list(&row.iter().map(|(pos, len)| (*pos, 7, 99, 0, *len)).collect::<Vec<_>>())
    };
    let positions = [0, 4, 5, 9, 10, 12, 14, 19, 20, 24, 25, 40];
    rows.into_iter().flat_map(|some| sought(&row(some), &[1, 2, 3, 4], &positions)).collect()
}

/// Sums and positions whose low 32 bits say another thing.
fn past_32_bits() -> Vec<Call> {
    let row = list(&[(0, 7, 9, 0, 9), (MOST - 1, 8, 9, 0, MOST)]);
    let positions = [0, 8, 9, MOST - 2, MOST - 1, MOST, MOST + 1, 2 * MOST - 2, 2 * MOST - 1];
    sought(&row, &[1, 2, (1 << 32) + 1], &positions)
}

fn lengths() -> Vec<Call> {
    let view = view(&three(), CHUNK);
    let lengths = [1, 23, 24, 25, 6 * RECORD - 1, 6 * RECORD];
    lengths.into_iter().flat_map(|length| sought(&view[..length], &[0, 1, 6], &[0])).collect()
}
