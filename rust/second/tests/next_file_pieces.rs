//! Pieces of a file one at a time, by hand.

mod common;
use common::files::*;
use common::*;
use second::Location::{Object, Zeros};
use second::{next_file_piece, File, Next};

/// What comes next at a place.
fn at(file: &File, (start, count): (u64, u64), place: u64) -> Option<Next> {
    next_file_piece(file, BLOCK, start, count, place).expect("no refusal")
}

/// All that come from a place on; each goes up to the place that is asked for next.
fn from(file: &File, read: (u64, u64), place: u64) -> Vec<Line> {
    let pieces = std::iter::successors(at(file, read, place), |next| at(file, read, next.next));
    let line = |Next { piece, next }: Next| {
        assert_eq!(next, piece.place + piece.len);
        (piece.index, piece.place, piece.from, piece.len)
    };
    pieces.map(line).collect()
}

/// The read takes one object on both sides of an edge, and zeros on both sides of the next one.
#[test]
fn every_place_about_two_edges() {
    let chunks = Joined::of_rows(&[
        &[(CHUNK - 8, 7, 100, 30, 8)],
        &[(0, 7, 100, 38, 8), (CHUNK - 4, 0, 0, 0, 4)],
        &[],
    ]);
    let file = chunks.file(3, u64::MAX);
    let object = |at| Object { id: 7, block: 0, length: 100, at };
    let middle = CHUNK - 8;
    let pieces = [
        (3, 0, object(36), 2),
        (4, 2, object(38), 8),
        (4, 10, Zeros, middle),
        (5, 10 + middle, Zeros, 5),
    ];
    let read = (CHUNK - 2, 2 + CHUNK + 5);
    assert_eq!(from(&file, read, 0), pieces);
    assert_eq!(from(&file, read, 1), [&[(3, 1, object(37), 1)], &pieces[1..]].concat());
    assert_eq!(from(&file, read, 2), pieces[1..]);
    assert_eq!(from(&file, read, 9), [&[(4, 9, object(45), 1)], &pieces[2..]].concat());
    assert_eq!(from(&file, read, 10), pieces[2..]);
    assert_eq!(from(&file, read, 11), [(4, 11, Zeros, middle - 1), pieces[3]]);
    // The last byte before the second edge, the first behind it, the last of all, and the end.
    assert_eq!(from(&file, read, 9 + middle), [(4, 9 + middle, Zeros, 1), pieces[3]]);
    assert_eq!(from(&file, read, 10 + middle), pieces[3..]);
    assert_eq!(from(&file, read, 14 + middle), [(5, 14 + middle, Zeros, 1)]);
    assert_eq!(from(&file, read, 15 + middle), []);
}

#[test]
fn sixteen_chunks_up_to_the_last_index() {
    let last = 4_294_967_295;
    let chunks = Joined::new(&vec![Vec::new(); 16]);
    let pieces: Vec<Line> = (0..16).map(|i| (last - 15 + i, i * CHUNK, Zeros, CHUNK)).collect();
    let file = chunks.file(last - 15, u64::MAX);
    assert_eq!(from(&file, (0, u64::MAX), 0), pieces);
    assert_eq!(from(&file, (0, u64::MAX), 15 * CHUNK), pieces[15..]);
    let rest = (last, 16 * CHUNK - 1, Zeros, 1);
    assert_eq!(from(&file, (0, u64::MAX), 16 * CHUNK - 1), [rest]);
}

/// At the file's end, at the last list's, and where nothing is read.
#[test]
fn at_and_past_the_end() {
    let chunks = Joined::of_rows(&[&[], &[(0, 7, 9, 0, 9)]]);
    let first = 3 * CHUNK;
    let slice = |len| (4, 1, Object { id: 7, block: 0, length: 9, at: 0 }, len);
    for (file_len, len) in [(first + CHUNK + 4, 4), (first + CHUNK + 9, 9)] {
        let file = chunks.file(3, file_len);
        assert_eq!(from(&file, (CHUNK - 1, u64::MAX), 0), [(3, 0, Zeros, 1), slice(len)]);
        for place in [1 + len, 2 + len, CHUNK, 1 << 32, (1 << 32) + 1, u64::MAX - 1, u64::MAX] {
            assert_eq!(at(&file, (CHUNK - 1, u64::MAX), place), None);
        }
    }
    let nothing = [(0, (0, 9)), (first, (0, 9)), (u64::MAX, (2 * CHUNK, 9)), (u64::MAX, (0, 0))];
    for (file_len, read) in nothing {
        for place in [0, 1, CHUNK, u64::MAX] {
            assert_eq!(at(&chunks.file(3, file_len), read, place), None);
        }
    }
}

/// With the start they would wrap into the chunks again.
#[test]
fn places_near_2_to_64() {
    let chunks = Joined::of_rows(&[&[], &[]]);
    let file = chunks.file(0, u64::MAX);
    let start = CHUNK + 7;
    for count in [u64::MAX, u64::MAX - start, u64::MAX - start + 1] {
        assert_eq!(from(&file, (start, count), 0), [(1, 0, Zeros, CHUNK - 7)]);
        for back in [1, 2, start - 1, start, start + 1, 2 * CHUNK] {
            assert_eq!(at(&file, (start, count), back.wrapping_neg()), None);
        }
    }
}

/// Which list is refused, at every kind of place: also one that no piece touches.
#[test]
fn refusal_wins_over_finished() {
    let (good, bad) = ((0, 7, 10, 4, 6), (0, 7, 10, 4, 7));
    let chunks = Joined::of_rows(&[&[good], &[good, bad], &[bad]]);
    let last = 4_294_967_293;
    for place in [0, 3, CHUNK, 3 * CHUNK, u64::MAX] {
        for (start, count) in [(0, 5), (0, 0), (2 * CHUNK, 1), (u64::MAX, 1)] {
            let refused = |first_index, block_size| {
                let file = chunks.file(first_index, u64::MAX);
                next_file_piece(&file, block_size, start, count, place)
            };
            assert_eq!(refused(last + 1, 0), Err(of_none(21)));
            assert_eq!(refused(last, 0), Err(of_none(8)));
            assert_eq!(refused(last, BLOCK), Err(of_list(last + 1, 6, 1)));
        }
        let none = File { lists: &[], lengths: &[], first_index: 0, file_len: 0 };
        assert_eq!(next_file_piece(&none, BLOCK, 0, 0, place), Err(of_none(21)));
    }
}
