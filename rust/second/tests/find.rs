//! Seeking in views, with every kind of number and position; and by hand in rows that are none.

mod common;
use common::random::{some_list, END};
use common::*;
use rng::Rng;
use second::{find, view_bytes, Found, Record};

/// The number of the segment that is found, in bytes that are not refused.
fn number(view: &[u8], segments: u64, position: u64) -> Option<u64> {
    let found = find(view, segments, position).expect("whole segments");
    found.map(|found| found.segment)
}

#[test]
fn segments_of_000() {
    let view = list(&view_of_000());
    for (segment, row) in (0..).zip(view_of_000()) {
        let record = Record::new(row.0, row.1, row.2, row.3, row.4);
        for position in [row.0, row.0 + 1, row.0 + row.4 - 1] {
            assert_eq!(find(&view, 6, position), Ok(Some(Found { segment, record })));
        }
    }
    for position in [CHUNK, CHUNK + 1, 1 << 32, (1 << 32) + 1, 1 << 63, u64::MAX] {
        assert_eq!(find(&view, 6, position), Ok(None));
    }
}

#[test]
fn empty_view_has_no_segment() {
    for segments in [0, 1, u64::MAX] {
        for position in [0, 1, u64::MAX] {
            assert_eq!(find(&[], segments, position), Ok(None));
        }
    }
}

#[test]
fn view_has_whole_segments() {
    for length in [1, 23, 25, 47, 49] {
        for segments in [0, 1, 2, u64::MAX] {
            assert_eq!(find(&vec![0; length], segments, 0), Err(no(1)));
        }
    }
}

/// Below the end every position has its segment, and no other position has one.
#[test]
fn every_position_of_a_view() {
    let mut random = Rng::new(11);
    for _ in 0..400 {
        let list = some_list(&mut random, 12, 4);
        let chunk_len = [random.below(200), random.below(END), CHUNK][random.below(3) as usize];
        let view = view_bytes(&list, chunk_len).expect("a view");
        let (row, segments) = (decoded(&view), view.len() as u64 / 24);
        let edges = row.iter().flat_map(|record| {
            [record.pos.saturating_sub(1), record.pos, record.end() - 1, record.end()]
        });
        for position in edges.chain(0..200).chain([chunk_len, u64::MAX]) {
            let held = holders(&row, position);
            assert_eq!(held.len(), usize::from(position < chunk_len));
            assert_eq!(number(&view, segments, position), held.first().copied());
        }
    }
}

#[test]
fn number_above_is_that_of_all() {
    let view = list(&view_of_000());
    for segments in [7, 6 * 24, u64::from(u32::MAX), 1 << 32, (1 << 32) + 1, u64::MAX] {
        for position in [0, 15 * MIB, 41 * MIB, CHUNK - 1, CHUNK] {
            assert_eq!(find(&view, segments, position), find(&view, 6, position));
        }
    }
}

/// What stands at the number or past it is not looked at; what stands before it is still found.
#[test]
fn number_below_hides_the_rest() {
    let view = list(&view_of_000());
    for segments in 0..6 {
        for (segment, row) in (0..).zip(view_of_000()) {
            let seen = (segment < segments).then_some(segment);
            assert_eq!(number(&view, segments, row.0), seen);
            assert_eq!(number(&view, segments, row.0 + row.4 - 1), seen);
        }
    }
}

#[test]
fn sums_are_those_of_mathematics() {
    let most = u64::from(u32::MAX);
    let row = list(&[(most - 1, 7, 9, 0, most)]);
    for position in [most - 1, most, 1 << 32, 2 * most - 2] {
        assert_eq!(number(&row, 1, position), Some(0));
    }
    // What is left of a sum or of a position in 32 bits is another number.
    for position in [0, 1, most - 3, most - 2, 2 * most - 1, (1 << 33) + most, u64::MAX] {
        assert_eq!(number(&row, 1, position), None);
    }
}

/// Rows that no view has: a segment is given only where it holds the position.
#[test]
fn rows_that_are_no_view() {
    let at = |pos, len| (pos, 7, 99, 0, len);
    // The second segment is looked at first, then the third; never the first.
    let unsorted = list(&[at(20, 5), at(0, 5), at(10, 5)]);
    assert_eq!([0, 12, 20].map(|p| number(&unsorted, 3, p)), [Some(1), Some(2), None]);
    let gaps = list(&[at(5, 5), at(20, 5)]);
    assert_eq!([0, 5, 10, 19, 25].map(|p| number(&gaps, 2, p)), [None, Some(0), None, None, None]);
    let overlapping = list(&[at(0, 50), at(10, 5), at(12, 1)]);
    assert_eq!(
        [9, 10, 12, 14, 40].map(|p| number(&overlapping, 3, p)),
        [Some(0), Some(1), Some(2), None, None]
    );
    let empty = list(&[at(0, 5), at(5, 0), at(5, 5)]);
    assert_eq!([4, 5].map(|p| number(&empty, 3, p)), [Some(0), Some(2)]);
    let twice = list(&[at(0, 5), at(0, 5)]);
    assert_eq!(number(&twice, 2, 0), Some(1));
}
