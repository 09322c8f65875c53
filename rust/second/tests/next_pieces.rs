//! Pieces of one chunk one at a time, by hand.

mod common;
use common::*;
use second::Location::{Object, Zeros};
use second::{next_piece, Location, Next, Piece};

const INDEX: u64 = 0x0102_0304;

/// Place, where the bytes lie, length, and the next place.
type Line = (u64, Location, u64, u64);

fn line(Next { piece, next }: Next) -> Line {
    assert_eq!(piece.index, INDEX);
    (piece.place, piece.from, piece.len, next)
}

/// What comes next at a place of a read of the whole chunk's list.
fn at(list: &[u8], (start, count): (u64, u64), place: u64) -> Option<Line> {
    let next = next_piece(list, INDEX, CHUNK, BLOCK, start, count, place);
    next.expect("no refusal").map(line)
}

/// All that come from a place on, each asked for with the place that came before.
fn from(list: &[u8], read: (u64, u64), place: u64) -> Vec<Line> {
    let first = at(list, read, place);
    std::iter::successors(first, |line| at(list, read, line.3)).collect()
}

/// A part of an object of document 000, in MiB: id, block, block length, place.
fn object(id: u64, block: u64, length: u64, at: u64) -> Location {
    Object { id, block, length: length * MIB, at: at * MIB }
}

/// The two pieces of paper 01.
const PAPER: (u64, u64) = (15_728_640, 2_097_152);

#[test]
fn two_pieces_of_the_paper() {
    let pieces = [
        (0, object(10, 1, 4, 1), 1_048_576, 1_048_576),
        (1_048_576, object(12, 0, 4, 0), 1_048_576, 2_097_152),
    ];
    assert_eq!(from(&list_of_000(), PAPER, 0), pieces);
    assert_eq!(from(&list_of_000(), PAPER, 1_048_576), pieces[1..]);
}

/// The objects that 000 lists for its chunk, in MiB.
#[test]
fn objects_of_the_chunk_in_000() {
    let pieces = [
        (0, Zeros, 10, 10),
        (10, object(10, 0, 4, 0), 4, 14),
        (14, object(10, 1, 4, 0), 2, 16),
        (16, object(12, 0, 4, 0), 4, 20),
        (20, object(12, 1, 4, 0), 4, 24),
        (24, object(12, 2, 2, 0), 2, 26),
        (26, object(11, 1, 4, 2), 2, 28),
        (28, object(11, 2, 4, 0), 4, 32),
        (32, object(11, 3, 4, 0), 4, 36),
        (36, object(10, 6, 4, 2), 2, 38),
        (38, object(10, 7, 2, 0), 2, 40),
        (40, Zeros, 24, 64),
    ]
    .map(|p| (p.0 * MIB, p.1, p.2 * MIB, p.3 * MIB));
    for (i, piece) in pieces.iter().enumerate() {
        assert_eq!(from(&list_of_000(), (0, CHUNK), piece.0), pieces[i..]);
    }
    assert_eq!(from(&list_of_000(), (0, CHUNK), CHUNK), []);
}

/// Its place in block and its length are moved, and what follows stays.
#[test]
fn rest_of_an_object() {
    let second = (1_048_576, object(12, 0, 4, 0), 1_048_576, 2_097_152);
    let rest = |at, left| {
        (at, Object { id: 10, block: 1, length: 4_194_304, at: 1_048_576 + at }, left, 1_048_576)
    };
    for (at, left) in [(1, 1_048_575), (1_000_000, 48_576), (1_048_575, 1)] {
        assert_eq!(from(&list_of_000(), PAPER, at), [rest(at, left), second]);
    }
    let last = Object { id: 12, block: 0, length: 4_194_304, at: 1_048_575 };
    assert_eq!(from(&list_of_000(), PAPER, 2_097_151), [(2_097_151, last, 1, 2_097_152)]);
}

/// A hole, zeros and a hole, from each place: the place in block stays 0.
#[test]
fn rest_of_zeros() {
    let list = list(&[(4, 0, 0, 0, 8), (20, 7, 5, 0, 5)]);
    let slice = (20, Object { id: 7, block: 0, length: 5, at: 0 }, 5, 25);
    for place in 0..20 {
        assert_eq!(from(&list, (0, 25), place), [(place, Zeros, 20 - place, 20), slice]);
    }
    let next = next_piece(&list, INDEX, CHUNK, BLOCK, 0, 25, 7).expect("no refusal");
    let bytes = next.expect("a piece").piece.to_bytes();
    let zeros = [&b"RZ"[..], &[1, 2, 3, 4], &[0, 0, 0, 7], &[0; 20], &[0, 0, 0, 13]].concat();
    assert_eq!(bytes[..], zeros);
}

/// Three records of one slice, the last of them written first, are one piece.
#[test]
fn records_that_join() {
    let list = list(&[(8, 7, 90, 18, 4), (0, 7, 90, 10, 5), (5, 7, 90, 15, 3)]);
    for place in 0..12 {
        let from_place = Object { id: 7, block: 0, length: 90, at: 10 + place };
        assert_eq!(from(&list, (0, 12), place), [(place, from_place, 12 - place, 12)]);
    }
}

#[test]
fn at_and_past_the_end() {
    let past = |end| [end, end + 1, 1 << 32, (1 << 32) + 1, 1 << 63, u64::MAX - 1, u64::MAX];
    for place in past(2_097_152) {
        assert_eq!(at(&list_of_000(), PAPER, place), None);
    }
    // Cut to the chunk, and reads of nothing.
    for place in past(7) {
        assert_eq!(at(&[], (CHUNK - 7, u64::MAX), place), None);
    }
    for read in [(0, 0), (CHUNK, 9), (u64::MAX, u64::MAX), (u64::MAX, 1)] {
        for place in past(0) {
            assert_eq!(at(&[], read, place), None);
        }
    }
}

/// Sums that would wrap into the chunk again.
#[test]
fn places_near_2_to_64() {
    for (start, count) in [(100, u64::MAX), (100, u64::MAX - 99), (CHUNK - 1, u64::MAX)] {
        assert_eq!(from(&[], (start, count), 0), [(0, Zeros, CHUNK - start, CHUNK - start)]);
        let last = CHUNK - start - 1;
        assert_eq!(from(&[], (start, count), last), [(last, Zeros, 1, last + 1)]);
        for place in [u64::MAX, u64::MAX - 50, u64::MAX - 99, u64::MAX - 100, u64::MAX - CHUNK] {
            assert_eq!(at(&[], (start, count), place), None);
        }
    }
}

/// Every refusal of the call, also at places where nothing is left.
#[test]
fn refusal_wins_over_finished() {
    let good = (0, 7, 10, 4, 6);
    let bad = |row| list(&[good, row]);
    for place in [0, 5, CHUNK, u64::MAX] {
        let refused = |list: &[u8], index, chunk_len, block_size| {
            next_piece(list, index, chunk_len, block_size, 0, 9, place).err()
        };
        let list_refused = |list: &[u8]| refused(list, 0, CHUNK, BLOCK);
        assert_eq!(refused(&[], u64::MAX, CHUNK + 1, 0), Some(no(7)));
        assert_eq!(refused(&[0; 1], 1 << 32, CHUNK, 0), Some(no(21)));
        assert_eq!(refused(&[0; 1], 0, CHUNK, 0), Some(no(8)));
        assert_eq!(list_refused(&[0; 25]), Some(no(1)));
        assert_eq!(list_refused(&[0; 2_049 * 24]), Some(no(2)));
        assert_eq!(list_refused(&bad((CHUNK, 7, 10, 0, 1))), Some(no_at(3, 1)));
        assert_eq!(list_refused(&bad((0, 8, CHUNK + 1, 0, 1))), Some(no_at(4, 1)));
        assert_eq!(list_refused(&bad((0, 0, 1, 0, 8))), Some(no_at(5, 1)));
        assert_eq!(list_refused(&bad((0, 7, 10, 4, 7))), Some(no_at(6, 1)));
        assert_eq!(list_refused(&bad((0, 7, 11, 0, 1))), Some(no_at(16, 1)));
    }
    // With nothing to read, too.
    assert_eq!(next_piece(&[0; 23], 0, 0, BLOCK, 0, 0, 0), Err(no(1)));
}

/// The first piece is the plan's own, whatever the index.
#[test]
fn index_is_handed_on() {
    for index in [0, 7, 4_294_967_295] {
        let piece = Piece { index, place: 0, from: Zeros, len: 5 };
        assert_eq!(next_piece(&[], index, 5, BLOCK, 0, 9, 0), Ok(Some(Next { piece, next: 5 })));
    }
}
