//! Seeking in a view, through the safe calls.

mod common;
use common::{apart, list, list_of_000};
use ezumokarin::*;

/// A view in a buffer of its own length, and its runs.
fn viewed(list: &[u8], chunk_len: u64) -> (Vec<u8>, Vec<Record>) {
    let mut out = vec![0; (2 * list.len() / Record::LEN + 1) * Record::LEN];
    let count = view(list, chunk_len, &mut out).expect("a view");
    out.truncate(count);
    let runs = records(&out).collect();
    (out, runs)
}

/// The number of the segment found.
fn number(view: &[u8], segments: u64, position: u64) -> Option<u64> {
    find(view, segments, position).expect("whole segments").map(|found| found.segment)
}

#[test]
fn every_segment_of_000() {
    let (view, runs) = viewed(&list_of_000(), CHUNK);
    assert_eq!(runs.len(), 6);
    for (segment, run) in (0..).zip(runs) {
        let (first, len) = (u64::from(run.pos), u64::from(run.len));
        for position in [first, first + len / 2, first + len - 1] {
            assert_eq!(find(&view, 6, position), Ok(Some(Found { segment, run })));
        }
    }
    for position in [CHUNK, CHUNK + 1, 1 << 32, u64::MAX] {
        assert_eq!(find(&view, 6, position), Ok(None));
    }
}

#[test]
fn every_position_of_the_longest_view() {
    let (view, runs) = viewed(&list(&apart(2_048)), CHUNK);
    assert_eq!(runs.len(), 4_097);
    for position in 0..4_096 {
        assert_eq!(number(&view, 4_097, position), Some(position));
    }
    for position in [4_096, CHUNK - 1] {
        assert_eq!(number(&view, 4_097, position), Some(4_096));
    }
    assert_eq!(number(&view, 4_097, CHUNK), None);
}

#[test]
fn view_of_no_positions() {
    let (view, _) = viewed(&list_of_000(), 0);
    assert_eq!(view, []);
    for segments in [0, 1, u64::MAX] {
        assert_eq!(find(&view, segments, 0), Ok(None));
    }
}

/// A buffer with room left: its other bytes are not looked at.
#[test]
fn view_in_a_longer_buffer() {
    let mut out = [0xff; 9 * Record::LEN];
    assert_eq!(view(&list_of_000(), CHUNK, &mut out), Ok(6 * Record::LEN));
    assert_eq!(number(&out, 6, CHUNK - 1), Some(5));
    assert_eq!(number(&out, 6, CHUNK), None);
    // With too high a number they are: the last segment is one of 0xff bytes.
    assert_eq!(number(&out, 9, u64::from(u32::MAX)), Some(8));
}

#[test]
fn numbers_above_and_below() {
    let (view, _) = viewed(&list_of_000(), CHUNK);
    for segments in [7, view.len() as u64, 1 << 32, u64::MAX] {
        assert_eq!(number(&view, segments, CHUNK - 1), Some(5));
        assert_eq!(number(&view, segments, CHUNK), None);
    }
    assert_eq!(number(&view, 5, CHUNK - 1), None);
    assert_eq!(number(&view, 5, 0), Some(0));
    assert_eq!(number(&view, 0, 0), None);
}

#[test]
fn sums_past_32_bits() {
    let row = list(&[(u32::MAX, 7, 9, 0, 2)]);
    let found = [0, u64::from(u32::MAX), 1 << 32, (1 << 32) + 1].map(|at| number(&row, 1, at));
    assert_eq!(found, [None, Some(0), Some(0), None]);
}

#[test]
fn length_of_the_view() {
    for length in [1, 23, 25, 49] {
        assert_eq!(find(&vec![0; length], 1, 0), Err(Refusal::ListLength));
    }
}
