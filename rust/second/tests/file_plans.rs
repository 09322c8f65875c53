//! Reads across chunks by hand: edges, the file's end, and what a file of one chunk reads.

mod common;
use common::files::*;
use common::*;
use second::Location::{Object, Zeros};
use second::{file_plan, read_plan_bytes, File, Location};

/// The edge of the first chunk given.
const EDGE: u64 = CHUNK;

fn at(id: u64, block: u64, length: u64, at: u64) -> Location {
    Object { id, block, length, at }
}

#[test]
fn slice_on_each_side_of_an_edge() {
    let chunks = Joined::of_rows(&[&[(CHUNK - 10, 7, 10, 0, 10)], &[(2, 8, 9, 3, 5)]]);
    let pieces = [
        (5, 0, Zeros, 10),
        (5, 10, at(7, 0, 10, 0), 10),
        (6, 20, Zeros, 2),
        (6, 22, at(8, 0, 9, 3), 5),
        (6, 27, Zeros, 3),
    ];
    assert_eq!(planned(&chunks.file(5, u64::MAX), EDGE - 20, 30), pieces);
}

/// Zeros, uncovered bytes and both.
#[test]
fn zeros_are_cut_at_an_edge() {
    let zeros = (CHUNK - 4, 0, 0, 0, 4);
    for rows in
        [[&[][..], &[]], [&[zeros], &[]], [&[], &[(0, 0, 4, 0, 4)]], [&[zeros], &[(0, 0, 0, 0, 9)]]]
    {
        let chunks = Joined::of_rows(&rows);
        let pieces = [(0, 0, Zeros, 3), (1, 3, Zeros, 4)];
        assert_eq!(planned(&chunks.file(0, u64::MAX), EDGE - 3, 7), pieces);
    }
}

/// The same block at the next place.
#[test]
fn object_is_cut_at_an_edge() {
    let chunks = Joined::of_rows(&[&[(CHUNK - 8, 7, 100, 30, 8)], &[(0, 7, 100, 38, 8)]]);
    let pieces = [(3, 0, at(7, 0, 100, 36), 2), (4, 2, at(7, 0, 100, 38), 8), (4, 10, Zeros, 1)];
    assert_eq!(planned(&chunks.file(3, u64::MAX), EDGE - 2, 11), pieces);
}

/// Document 000's list in two chunks, a read that takes the first one's end and the second one's
/// beginning, and one over everything.
#[test]
fn list_of_000_twice() {
    let chunks = Joined::new(&[list_of_000(), list_of_000()]);
    let pieces = [
        (0, 0, at(10, 7, 2 * MIB, MIB), MIB),
        (0, MIB, Zeros, 24 * MIB),
        (1, 25 * MIB, Zeros, 10 * MIB),
        (1, 35 * MIB, at(10, 0, 4 * MIB, 0), MIB),
    ];
    assert_eq!(planned(&chunks.file(0, 2 * CHUNK), 39 * MIB, 36 * MIB), pieces);
    let all = planned(&chunks.file(0, 2 * CHUNK), 0, u64::MAX);
    assert_eq!(all.len(), 24);
    assert_eq!(all[12], (1, 64 * MIB, Zeros, 10 * MIB));
    assert_eq!(all[23], (1, 104 * MIB, Zeros, 24 * MIB));
}

/// A read that starts in the third of three chunks.
#[test]
fn places_count_from_the_start_of_the_read() {
    let row = |id| [(0, id, 9, 0, 9)];
    let chunks = Joined::of_rows(&[&row(7), &row(8), &row(9)]);
    let file = chunks.file(10, u64::MAX);
    assert_eq!(planned(&file, 2 * CHUNK + 4, 7), [(12, 0, at(9, 0, 9, 4), 5), (12, 5, Zeros, 2)]);
    let pieces = [(11, 0, at(8, 0, 9, 8), 1), (11, 1, Zeros, CHUNK - 9)];
    let behind = (12, CHUNK - 8, at(9, 0, 9, 0), 3);
    assert_eq!(planned(&file, CHUNK + 8, CHUNK - 5), [&pieces[..], &[behind]].concat());
}

#[test]
fn read_is_cut_to_the_file() {
    let chunks = Joined::of_rows(&[&[], &[(0, 7, 9, 0, 9)]]);
    let end = |file_len, start| planned(&chunks.file(3, file_len), start, u64::MAX);
    let first = 3 * CHUNK;
    let whole = (3, 0, Zeros, CHUNK);
    // In the second chunk given, at its edge, in the first one.
    assert_eq!(end(first + CHUNK + 4, 0), [whole, (4, CHUNK, at(7, 0, 9, 0), 4)]);
    assert_eq!(end(first + CHUNK + 1, CHUNK), [(4, 0, at(7, 0, 9, 0), 1)]);
    assert_eq!(end(first + CHUNK, 0), [whole]);
    assert_eq!(end(first + CHUNK, CHUNK), []);
    assert_eq!(end(first + CHUNK - 1, 0), [(3, 0, Zeros, CHUNK - 1)]);
    assert_eq!(end(first + 1, 0), [(3, 0, Zeros, 1)]);
    // At the first chunk's beginning, and before it.
    for file_len in [first, first - 1, CHUNK, 1, 0] {
        assert_eq!(end(file_len, 0), []);
    }
}

/// The last list ends before the file does.
#[test]
fn read_is_cut_to_the_last_list() {
    let chunks = Joined::of_rows(&[&[], &[]]);
    for file_len in [2 * CHUNK, 2 * CHUNK + 1, u64::MAX] {
        let file = chunks.file(0, file_len);
        assert_eq!(planned(&file, 2 * CHUNK - 1, u64::MAX), [(1, 0, Zeros, 1)]);
        assert_eq!(planned(&file, 2 * CHUNK, 1), []);
    }
}

#[test]
fn any_start_and_count() {
    let chunks = Joined::of_rows(&[&[], &[]]);
    let file = chunks.file(0, u64::MAX);
    for (start, count) in [(u64::MAX, u64::MAX), (u64::MAX, 1), (2 * CHUNK, u64::MAX), (5, 0)] {
        assert_eq!(planned(&file, start, count), []);
    }
    // Their sum would wrap to a small number.
    assert_eq!(planned(&file, CHUNK + 7, u64::MAX - CHUNK), [(1, 0, Zeros, CHUNK - 7)]);
    assert_eq!(planned(&file, 2 * CHUNK - 1, u64::MAX), [(1, 0, Zeros, 1)]);
}

#[test]
fn sixteen_chunks_up_to_the_last_index() {
    let last = 4_294_967_295;
    let chunks = Joined::new(&vec![Vec::new(); 16]);
    let pieces: Vec<Line> = (0..16).map(|i| (last - 15 + i, i * CHUNK, Zeros, CHUNK)).collect();
    assert_eq!(planned(&chunks.file(last - 15, u64::MAX), 0, u64::MAX), pieces);
}

/// A file of one list reads what its chunk does.
#[test]
fn one_list_is_a_single_plan() {
    let list = list_of_000();
    let lengths = [list.len() as u64];
    for first_index in [0, 1, 7, 4_294_967_295] {
        for part in [0, 1, 12 * MIB, CHUNK - 1, CHUNK, CHUNK + 1, 3 * CHUNK] {
            let file_len = first_index * CHUNK + part;
            let file = File { lists: &list, lengths: &lengths, first_index, file_len };
            for (start, count) in [(0, u64::MAX), (11 * MIB, 8 * MIB), (part, 1), (u64::MAX, 9)] {
                let single =
                    read_plan_bytes(&list, first_index, part.min(CHUNK), BLOCK, start, count);
                let mut out = vec![0; 9_000];
                let written = file_plan(&file, BLOCK, start, count, &mut out).expect("a plan");
                assert_eq!(Ok(&out[..written]), single.as_deref());
            }
        }
    }
}
