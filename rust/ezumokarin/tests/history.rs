//! What is new since last time, through the safe call.

mod common;
use common::{list, list_of_000, Row};
use ezumokarin::*;

const A: Row = (0, 7, 20, 0, 20);
const B: Row = (4, 0, 0, 0, 8);
const C: Row = (30, 8, 9, 0, 9);

/// The part starts at this byte of the newer list and ends with it.
fn starts(part: &[u8], newer: &[u8], at: usize) {
    assert_eq!(part.as_ptr(), newer[at..].as_ptr());
    assert_eq!(part, &newer[at..]);
}

fn records_from(older: &[u8], newer: &[u8]) {
    match added(older, newer) {
        Ok(Added::Records(part)) => starts(part, newer, older.len()),
        other => panic!("{other:?}"),
    }
}

fn rewritten(older: &[u8], newer: &[u8]) {
    match added(older, newer) {
        Ok(Added::Rewritten(part)) => starts(part, newer, 0),
        other => panic!("{other:?}"),
    }
}

#[test]
fn every_beginning() {
    let newer = list_of_000();
    for records in 0..=3 {
        records_from(&list_of_000()[..24 * records], &newer);
        // The same memory.
        records_from(&newer[..24 * records], &newer);
    }
    records_from(&[], &[]);
}

#[test]
fn rewritten_lists() {
    let older = list(&[A, B]);
    for newer in [&[][..], &[A], &[B], &[B, A], &[A, C, B], &[C, A, B], &[A, (4, 0, 8, 0, 8)]] {
        rewritten(&older, &list(newer));
    }
    // Another first byte, another last one.
    rewritten(&older, &list(&[(1 << 24, 7, 20, 0, 20), B]));
    rewritten(&older, &list(&[A, (4, 0, 0, 0, 9), C]));
    // The same memory, and parts of one that overlap.
    rewritten(&older, &older[..24]);
    let memory = list(&[A, B, A, C]);
    rewritten(&memory[..72], &memory[24..]);
    records_from(&memory[..24], &memory[48..]);
}

#[test]
fn compacted_list_is_rewritten() {
    let older = list(&[A, B, C]);
    let (mut plan, mut new_list) = ([0; 5 * Piece::LEN], [0; 3 * Record::LEN]);
    let counts = compact(&older, 0, 65_536, 2, 9, &mut plan, &mut new_list).expect("a plan");
    rewritten(&older, &new_list[..counts.list]);
}

#[test]
fn part_is_a_list() {
    let newer = list(&[A, B, C, A]);
    for records in 0..=4 {
        let Ok(Added::Records(part)) = added(&newer[..24 * records], &newer) else {
            panic!("no beginning");
        };
        assert_eq!(check(part), Ok(4 - records));
    }
}

/// A list for each refusal, each at another place.
fn refused_lists() -> [(Vec<u8>, Refusal); 7] {
    let chunk = CHUNK as u32;
    [
        (vec![0; 25], Refusal::ListLength),
        (vec![0; 2_049 * 24], Refusal::ListRecords),
        (list(&[A, (chunk, 7, 20, 0, 1)]), Refusal::RecordEnd { place: 1 }),
        (list(&[A, B, (0, 9, chunk + 1, 0, 1)]), Refusal::SliceSize { place: 2 }),
        (list(&[(4, 0, 1, 0, 8)]), Refusal::ZeroRecord { place: 0 }),
        (list(&[A, A, A, (0, 7, 20, 4, 17)]), Refusal::SliceEnd { place: 3 }),
        (list(&[A, C, (0, 7, 21, 0, 20)]), Refusal::TwoSizes { place: 2 }),
    ]
}

#[test]
fn refused_lists_the_older_first() {
    let good = list(&[A, B, C]);
    for (bad, refusal) in refused_lists() {
        assert_eq!(added(&good, &bad), Err(refusal));
        assert_eq!(added(&[], &bad), Err(refusal));
        for newer in [&good, &bad] {
            assert_eq!(added(&bad, newer), Err(refusal));
        }
        for (newer, _) in refused_lists() {
            assert_eq!(added(&bad, &newer), Err(refusal));
        }
    }
}

#[test]
fn refused_beginning() {
    let newer = list(&[A, (0, 7, 21, 0, 20), (0, 7, 20, 4, 17)]);
    assert_eq!(added(&newer[..24], &newer), Err(Refusal::SliceEnd { place: 2 }));
    assert_eq!(added(&newer[..48], &newer), Err(Refusal::TwoSizes { place: 1 }));
    // Half a record.
    let newer = list(&[A, B]);
    for length in [1, 23, 25, 47] {
        assert_eq!(added(&newer[..length], &newer), Err(Refusal::ListLength));
    }
}
