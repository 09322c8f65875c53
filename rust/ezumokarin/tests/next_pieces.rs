//! Pieces of one chunk one at a time, with the pieces by hand.

mod common;

use common::{line, list, list_of_000, Row};
use ezumokarin::{next_piece, read_pieces, Next, Piece, Refusal, CHUNK};

const BLOCK: u64 = 4_194_304;
/// The read that the requirements print, and its pieces.
const PAPER: (u64, u64) = (15_728_640, 2_097_152);
const FIRST: &str = "RB 9 0 10 1 4194304 1048576 1048576\n";
const SECOND: &str = "RB 9 1048576 12 0 4194304 0 1048576\n";

/// The pieces of chunk 9 from a place on, one by one by the call, and the last place.
fn asked(list: &[u8], (start, count): (u64, u64), mut at: u64) -> (String, u64) {
    let mut text = String::new();
    while let Some(Next { piece, next }) =
        next_piece(list, 9, CHUNK, BLOCK, start, count, at).expect("no refusal")
    {
        assert_eq!(next, at + u64::from(piece.len));
        text += &line(piece);
        at = next;
    }
    (text, at)
}

/// The same by the iterator.
fn walked(list: &[u8], (start, count): (u64, u64), at: u64) -> (String, u64) {
    let mut pieces = read_pieces(list, 9, CHUNK, BLOCK, start, count).at(at);
    let text = pieces.by_ref().map(|piece| line(piece.expect("no refusal"))).collect();
    (text, pieces.place())
}

fn reads(list: &[u8], read: (u64, u64), at: u64, plan: &str, end: u64) {
    let want = (plan.to_string(), end);
    assert_eq!(asked(list, read, at), want);
    assert_eq!(walked(list, read, at), want);
}

#[test]
fn whole_pieces() {
    reads(&list_of_000(), PAPER, 0, &[FIRST, SECOND].concat(), 2_097_152);
    reads(&list_of_000(), PAPER, 1_048_576, SECOND, 2_097_152);
}

#[test]
fn rest_of_an_object() {
    for (at, rest) in [
        (1, "RB 9 1 10 1 4194304 1048577 1048575\n"),
        (1_048_575, "RB 9 1048575 10 1 4194304 2097151 1\n"),
    ] {
        reads(&list_of_000(), PAPER, at, &[rest, SECOND].concat(), 2_097_152);
    }
    let last = "RB 9 2097151 12 0 4194304 1048575 1\n";
    reads(&list_of_000(), PAPER, 2_097_151, last, 2_097_152);
}

/// A hole, zeros, a hole, zeros: one piece, whose rest has place in block 0.
#[test]
fn rest_of_zeros() {
    let list = list(&[(4, 0, 0, 0, 8), (15, 0, 5, 0, 5), (20, 7, 5, 0, 5)]);
    let slice = "RB 9 20 7 0 5 0 5\n";
    for at in 0..20 {
        let zeros = format!("RZ 9 {at} 0 0 0 0 {}\n", 20 - at);
        reads(&list, (0, 25), at, &(zeros + slice), 25);
    }
}

/// A slice in three records, the last one written first.
#[test]
fn records_that_join() {
    let list = list(&[(8, 7, 90, 18, 4), (0, 7, 90, 10, 5), (5, 7, 90, 15, 3)]);
    reads(&list, (0, 12), 0, "RB 9 0 7 0 90 10 12\n", 12);
    reads(&list, (0, 12), 6, "RB 9 6 7 0 90 16 6\n", 12);
}

/// The place given is the place kept.
#[test]
fn at_and_past_the_end() {
    for at in [2_097_152, 2_097_153, 1 << 32, u64::MAX - PAPER.0, u64::MAX - 1, u64::MAX] {
        reads(&list_of_000(), PAPER, at, "", at);
    }
    for read in [(0, 0), (CHUNK, 9), (u64::MAX, u64::MAX)] {
        for at in [0, 1, u64::MAX] {
            reads(&list_of_000(), read, at, "", at);
        }
    }
    reads(&[], (CHUNK - 1, u64::MAX), 0, "RZ 9 0 0 0 0 0 1\n", 1);
}

/// Every refusal, where there is a piece and where there is none.
#[test]
fn refusals() {
    let good: Row = (0, 7, 10, 4, 6);
    let chunk = CHUNK as u32;
    let bad = |row: Row| list(&[good, row]);
    for at in [0, 3, u64::MAX] {
        let told = |list: &[u8], index, chunk_len, block_size| {
            next_piece(list, index, chunk_len, block_size, 0, 9, at).expect_err("a refusal")
        };
        let list_told = |list: &[u8]| told(list, 9, CHUNK, BLOCK);
        assert_eq!(told(&[0; 1], 1 << 32, CHUNK + 1, 0), Refusal::ChunkLength);
        assert_eq!(told(&[0; 1], 1 << 32, CHUNK, 0), Refusal::ChunkLists);
        assert_eq!(told(&[0; 1], 9, CHUNK, 0), Refusal::BlockSize);
        assert_eq!(list_told(&[0; 23]), Refusal::ListLength);
        assert_eq!(list_told(&[0; 2_049 * 24]), Refusal::ListRecords);
        assert_eq!(list_told(&bad((chunk, 7, 10, 0, 1))), Refusal::RecordEnd { place: 1 });
        assert_eq!(list_told(&bad((0, 8, chunk + 1, 0, 1))), Refusal::SliceSize { place: 1 });
        assert_eq!(list_told(&bad((0, 0, 1, 0, 8))), Refusal::ZeroRecord { place: 1 });
        assert_eq!(list_told(&bad((0, 7, 10, 4, 7))), Refusal::SliceEnd { place: 1 });
        assert_eq!(list_told(&bad((0, 7, 11, 0, 1))), Refusal::TwoSizes { place: 1 });
    }
}

/// A refusal is given once, and the place stays; so does the end.
#[test]
fn nothing_behind_the_end() {
    let mut refused = read_pieces(&[0; 23], 9, CHUNK, BLOCK, 0, 9).at(4);
    assert_eq!(refused.next(), Some(Err(Refusal::ListLength)));
    assert_eq!((refused.next(), refused.next(), refused.place()), (None, None, 4));

    let mut finished = read_pieces(&[], 9, CHUNK, BLOCK, 0, 9);
    assert_eq!(finished.by_ref().count(), 1);
    assert_eq!((finished.next(), finished.next(), finished.place()), (None, None, 9));
    // Another place begins again.
    let rest: Vec<Piece> = finished.at(7).map(|piece| piece.expect("no refusal")).collect();
    assert_eq!(rest.into_iter().map(line).collect::<String>(), "RZ 9 7 0 0 0 0 2\n");
}

/// A piece for every byte: all of a short list, and the last of the longest.
#[test]
fn piece_by_piece() {
    let places = |records, from| -> Vec<u64> {
        let list = list(&common::apart(records));
        let end = 2 * u64::from(records);
        let pieces = read_pieces(&list, 9, end, 65_536, 0, u64::MAX).at(from);
        pieces.map(|piece| piece.expect("a piece").place.into()).collect()
    };
    assert_eq!(places(100, 0), (0..200).collect::<Vec<_>>());
    assert_eq!(places(2_048, 4_090), (4_090..4_096).collect::<Vec<_>>());
}
