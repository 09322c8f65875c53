//! What is new since last time, by hand from the paper's words.

mod common;
use common::*;
use second::{added, check, compact_bytes, rewritten};

const A: Row = (0, 7, 20, 0, 20);
const B: Row = (4, 0, 0, 0, 8);
const C: Row = (30, 8, 9, 0, 9);

/// Both questions: whether it was rewritten, and how the part stands in the newer list.
fn asked(older: &[Row], newer: &[Row]) -> (bool, Vec<Row>) {
    let (older, newer) = (list(older), list(newer));
    let part = added(&older, &newer);
    assert!(newer.as_ptr_range().start <= part.as_ptr());
    assert_eq!(part.as_ptr_range().end, newer.as_ptr_range().end);
    (rewritten(&older, &newer).expect("two lists"), rows(part))
}

/// Refused so, with an empty part.
fn refused(older: &[u8], newer: &[u8], number: u64, place: u64) {
    assert_eq!(rewritten(older, newer), Err(no_at(number, place)));
    assert_eq!(added(older, newer), []);
}

#[test]
fn older_is_a_beginning() {
    assert_eq!(asked(&[A], &[A, B]), (false, vec![B]));
    assert_eq!(asked(&[A], &[A, B, C]), (false, vec![B, C]));
    assert_eq!(asked(&[A, B], &[A, B, C]), (false, vec![C]));
    // A record that stands twice was added the second time.
    assert_eq!(asked(&[A], &[A, A]), (false, vec![A]));
}

#[test]
fn equal_lists_add_nothing() {
    for rows in [&[][..], &[A], &[A, B, C]] {
        assert_eq!(asked(rows, rows), (false, vec![]));
    }
}

#[test]
fn empty_older_list_adds_all() {
    assert_eq!(asked(&[], &[A, B, C]), (false, vec![A, B, C]));
}

#[test]
fn otherwise_the_whole_newer_list() {
    for newer in [&[B][..], &[C, A, B], &[A, C, B], &[B, A], &[A, A, B], &[A]] {
        assert_eq!(asked(&[A, B], newer), (true, newer.to_vec()));
    }
}

#[test]
fn empty_newer_list_is_rewritten() {
    assert_eq!(asked(&[A], &[]), (true, vec![]));
}

/// Any byte of the older list that is another in the newer.
#[test]
fn beginning_is_of_bytes() {
    let older = list(&[A, B]);
    let mut newer = list(&[A, B, C]);
    for at in 0..older.len() {
        for bit in 0..8 {
            newer[at] ^= 1 << bit;
            if check(&newer).is_ok() {
                assert_eq!(rewritten(&older, &newer), Ok(true), "byte {at}");
                assert_eq!(added(&older, &newer), newer);
            }
            newer[at] ^= 1 << bit;
        }
    }
    // Zeros mean the same in either size, and are other bytes.
    assert_eq!(asked(&[(4, 0, 0, 0, 8)], &[(4, 0, 8, 0, 8)]), (true, vec![(4, 0, 8, 0, 8)]));
}

#[test]
fn compacted_list_is_rewritten() {
    let older = list(&[A, B, C]);
    let (_, newer) = compact_bytes(&older, 0, BLOCK, 2, 9).expect("a plan");
    assert_eq!(rewritten(&older, &newer), Ok(true));
    assert_eq!(rows(added(&older, &newer)), [(0, 9, 20, 0, 20), C]);
    // Of no records there is nothing to compact.
    let (_, newer) = compact_bytes(&older, 0, BLOCK, 0, 9).expect("a plan");
    assert_eq!(rewritten(&older, &newer), Ok(false));
}

/// A list for each refusal, and the place that it gives.
fn refused_lists() -> [(Vec<u8>, u64, u64); 7] {
    [
        (vec![0; 23], 1, 0),
        (vec![0; 2_049 * 24], 2, 0),
        (list(&[A, (CHUNK, 7, 20, 0, 1)]), 3, 1),
        (list(&[A, B, (0, 9, CHUNK + 1, 0, 1)]), 4, 2),
        (list(&[(4, 0, 1, 0, 8)]), 5, 0),
        (list(&[A, A, A, (0, 7, 20, 4, 17)]), 6, 3),
        (list(&[A, C, (0, 7, 21, 0, 20)]), 16, 2),
    ]
}

#[test]
fn either_list_is_refused() {
    let good = list(&[A, B, C]);
    for (bad, number, place) in refused_lists() {
        for other in [&good[..], &[]] {
            refused(&bad, other, number, place);
            refused(other, &bad, number, place);
        }
        refused(&bad, &bad, number, place);
    }
}

#[test]
fn refusal_of_the_older_list_comes_first() {
    for (older, number, place) in refused_lists() {
        for (newer, ..) in refused_lists() {
            refused(&older, &newer, number, place);
        }
    }
}

/// Also where the older list's bytes are a beginning of the newer's.
#[test]
fn beginning_that_is_no_list() {
    let newer = list(&[A, B, C]);
    for length in [1, 23, 25, 47, 71] {
        refused(&newer[..length], &newer, 1, 0);
    }
    let bad = list(&[A, (0, 7, 21, 0, 20), C]);
    refused(&bad[..48], &bad, 16, 1);
    refused(&bad[..24], &bad, 16, 1);
}

#[test]
fn lists_at_the_limit() {
    let records = |count: usize| vec![0; count * 24];
    let (older, newer) = (records(2_047), records(2_048));
    assert_eq!(rewritten(&older, &newer), Ok(false));
    assert_eq!(added(&older, &newer), [0; 24]);
    assert_eq!(added(&[], &newer).len(), 2_048 * 24);
    refused(&newer, &records(2_049), 2, 0);
}
