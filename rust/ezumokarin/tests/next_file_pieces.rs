//! Pieces of a file one at a time, with the pieces by hand.

mod common;

use common::{joined, line, list, Row};
use ezumokarin::{file_pieces, next_file_piece, ListRefusal, Next, Refusal, CHUNK};

const BLOCK: u64 = 4_194_304;

/// The read of a file from chunk 5 on has these pieces from a place on, up to its end: by the call
/// and by the iterator. The file has `len` bytes from there.
fn reads(
    lists: &[Vec<u8>],
    len: u64,
    (start, count): (u64, u64),
    from: u64,
    (plan, end): (&str, u64),
) {
    let (lists, lengths) = joined(lists);
    let file_len = 5 * CHUNK + len;
    let (mut at, mut asked) = (from, String::new());
    while let Some(Next { piece, next }) =
        next_file_piece(&lists, &lengths, 5, file_len, BLOCK, start, count, at).expect("no refusal")
    {
        asked += &line(piece);
        at = next;
    }
    assert_eq!((asked.as_str(), at), (plan, end));
    let mut pieces = file_pieces(&lists, &lengths, 5, file_len, BLOCK, start, count).at(from);
    let walked: String = pieces.by_ref().map(|piece| line(piece.expect("no refusal"))).collect();
    assert_eq!((walked.as_str(), pieces.place()), (plan, end));
}

/// One slice, whose next byte stands in the next chunk, and zeros on both sides of the edge behind.
#[test]
fn over_edges() {
    let chunk = CHUNK as u32;
    let slice = list(&[(chunk - 8, 7, 100, 30, 8)]);
    let lists = [slice, list(&[(0, 7, 100, 38, 8), (chunk - 4, 0, 0, 0, 4)]), Vec::new()];
    let behind = "RB 6 2 7 0 100 38 8
RZ 6 10 0 0 0 0 67108856
RZ 7 67108866 0 0 0 0 5
";
    let (read, end) = ((CHUNK - 2, CHUNK + 7), CHUNK + 7);
    let all = format!("RB 5 0 7 0 100 36 2\n{behind}");
    reads(&lists, 3 * CHUNK, read, 0, (&all, end));
    let rest = format!("RB 5 1 7 0 100 37 1\n{behind}");
    reads(&lists, 3 * CHUNK, read, 1, (&rest, end));
    reads(&lists, 3 * CHUNK, read, 2, (behind, end));
    let last = "RZ 6 67108865 0 0 0 0 1\nRZ 7 67108866 0 0 0 0 5\n";
    reads(&lists, 3 * CHUNK, read, CHUNK + 1, (last, end));
    reads(&lists, 3 * CHUNK, read, CHUNK + 2, ("RZ 7 67108866 0 0 0 0 5\n", end));
    reads(&lists, 3 * CHUNK, read, CHUNK + 6, ("RZ 7 67108870 0 0 0 0 1\n", end));
}

/// The file's end, the last list's, a place past them, and nothing to read.
#[test]
fn ends() {
    let lists = [Vec::new(), list(&[(0, 7, 9, 0, 9)])];
    let read = (CHUNK - 1, u64::MAX);
    reads(&lists, CHUNK + 4, read, 0, ("RZ 5 0 0 0 0 0 1\nRB 6 1 7 0 9 0 4\n", 5));
    reads(&lists, CHUNK + 4, read, 3, ("RB 6 3 7 0 9 2 2\n", 5));
    for from in [5, 6, 1 << 32, (1 << 32) + 1, u64::MAX - CHUNK + 2, u64::MAX] {
        reads(&lists, CHUNK + 4, read, from, ("", from));
    }
    reads(&lists, 9 * CHUNK, (2 * CHUNK - 1, u64::MAX), 0, ("RZ 6 0 0 0 0 0 1\n", 1));
    for read in [(0, 0), (2 * CHUNK, 1), (u64::MAX, u64::MAX)] {
        reads(&lists, 9 * CHUNK, read, 0, ("", 0));
        reads(&lists, 9 * CHUNK, read, 7, ("", 7));
    }
}

/// Every list is checked, also where nothing is left, and the first refused one is told.
#[test]
fn refusals() {
    let (good, bad): (Row, Row) = ((0, 7, 10, 4, 6), (0, 7, 10, 4, 7));
    let (lists, lengths) = joined(&[list(&[good]), list(&[good, bad]), list(&[bad])]);
    let past = 1 << 32;
    for at in [0, 2, CHUNK, u64::MAX] {
        let told = |first_index, block_size| {
            next_file_piece(&lists, &lengths, first_index, 0, block_size, 0, 5, at)
        };
        let none = |refusal| Err(ListRefusal { refusal, index: None });
        assert_eq!(told(past - 2, 0), none(Refusal::ChunkLists));
        assert_eq!(told(past - 3, 0), none(Refusal::BlockSize));
        let refusal = Refusal::SliceEnd { place: 1 };
        assert_eq!(told(5, BLOCK), Err(ListRefusal { refusal, index: Some(6) }));
    }
}

/// A refusal is given once, and the place stays.
#[test]
fn nothing_behind_a_refusal() {
    let mut refused = file_pieces(&[0; 23], &[0, 23], 5, u64::MAX, BLOCK, 0, 9).at(4);
    let refusal = ListRefusal { refusal: Refusal::ListLength, index: Some(6) };
    assert_eq!(refused.next(), Some(Err(refusal)));
    assert_eq!((refused.next(), refused.next(), refused.place()), (None, None, 4));
}
