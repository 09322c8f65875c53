//! Plans made elsewhere, with the pieces by hand.

mod common;

use common::{joined, list, Row};
use ezumokarin::{file_plan, judge_plan, Judged, ListRefusal, Piece, Refusal, CHUNK};

const BLOCK: u64 = 65_536;

/// Mark, chunk index, place, id, block, block length, place in block, length.
type Line = (&'static [u8; 2], u32, u32, u64, u32, u32, u32, u32);

fn bytes(&(mark, index, place, id, block, length, at, len): &Line) -> Vec<u8> {
    let mut bytes = [&mark[..], &index.to_be_bytes(), &place.to_be_bytes()].concat();
    bytes.extend(id.to_be_bytes());
    [block, length, at, len].iter().for_each(|number| bytes.extend(number.to_be_bytes()));
    bytes
}

fn plan(lines: &[Line]) -> Vec<u8> {
    lines.iter().flat_map(bytes).collect()
}

/// Zeros up to the slice, its bytes in two blocks up to the edge, and behind it zeros.
const OURS: [Line; 4] = [
    (b"RZ", 5, 0, 0, 0, 0, 0, 10),
    (b"RB", 5, 10, 7, 0, 65_536, 65_526, 10),
    (b"RB", 5, 20, 7, 1, 100, 0, 20),
    (b"RZ", 6, 40, 0, 0, 0, 0, 60),
];

/// What is said of a plan of 100 bytes about the edge behind chunk 5.
fn said(plan: &[u8]) -> Judged {
    let slice: Row = (CHUNK as u32 - 30, 7, 65_636, 65_526, 30);
    let (lists, lengths) = joined(&[list(&[slice]), Vec::new()]);
    let (start, count) = (CHUNK - 40, 100);
    let mut ours = [0; 4 * Piece::LEN];
    let written = file_plan(&lists, &lengths, 5, u64::MAX, BLOCK, start, count, &mut ours);
    assert_eq!((written, &ours[..]), (Ok(ours.len()), &self::plan(&OURS)[..]));
    judge_plan(&lists, &lengths, 5, u64::MAX, BLOCK, start, count, plan).expect("no refusal")
}

/// Our plan with this piece in the place of one.
fn with(number: usize, line: Line) -> Judged {
    let mut lines = OURS;
    lines[number] = line;
    said(&plan(&lines))
}

#[test]
fn any_cut_and_order() {
    let [a, b, c, d] = OURS;
    assert_eq!(said(&plan(&[a, b, c, d])), Judged::Accepted);
    assert_eq!(said(&plan(&[d, c, b, a])), Judged::Accepted);
    let front = (b"RB", 5, 20, 7, 1, 100, 0, 1);
    let back = (b"RB", 5, 21, 7, 1, 100, 1, 19);
    assert_eq!(said(&plan(&[back, d, a, b, front])), Judged::Accepted);
}

/// Each byte by itself, from both ends in turn.
#[test]
fn single_bytes() {
    let mut lines: Vec<Line> = Vec::new();
    for (mark, index, place, id, block, length, at, len) in OURS {
        let moved = |j| if id == 0 { 0 } else { at + j };
        lines.extend((0..len).map(|j| (mark, index, place + j, id, block, length, moved(j), 1)));
    }
    let turns = |i: usize| if i.is_multiple_of(2) { i / 2 } else { 99 - i / 2 };
    let lines: Vec<Line> = (0..100).map(|i| lines[turns(i)]).collect();
    assert_eq!(said(&plan(&lines)), Judged::Accepted);
    assert_eq!(said(&plan(&lines[..99])), Judged::WrongByte(50));
    assert_eq!(said(&plan(&[&lines[..], &lines[1..2]].concat())), Judged::WrongByte(99));
}

#[test]
fn wrong_in_itself() {
    for wrong in [
        (b"RZ", 5, 0, 0, 0, 0, 0, 0),
        (b"RY", 5, 0, 0, 0, 0, 0, 10),
        (b"RZ", 6, 0, 0, 0, 0, 0, 10),
        (b"RZ", 5, 0, 1, 0, 0, 0, 10),
        (b"RZ", 5, 0, 0, 1, 0, 0, 10),
        (b"RZ", 5, 0, 0, 0, 1, 0, 10),
        (b"RZ", 5, 0, 0, 0, 0, 1, 10),
        (b"RZ", 5, 0, 0, 0, 0, 0, 11),
        (b"RZ", 5, u32::MAX, 0, 0, 0, 0, 11),
        (b"RB", 5, 0, 7, 0, 65_536, 65_516, 10),
    ] {
        assert_eq!(with(0, wrong), Judged::WrongPiece(0));
    }
    for wrong in [
        (b"RZ", 5, 10, 7, 0, 65_536, 65_526, 10),
        (b"RZ", 5, 10, 0, 0, 0, 0, 10),
        (b"RB", 6, 10, 7, 0, 65_536, 65_526, 10),
        (b"RB", 5, 11, 7, 0, 65_536, 65_526, 9),
        (b"RB", 5, 10, 8, 0, 65_536, 65_526, 10),
        (b"RB", 5, 10, 7, 1, 65_536, 65_526, 10),
        (b"RB", 5, 10, 7, 0, 65_535, 65_526, 10),
        (b"RB", 5, 10, 7, 0, 65_536, 65_525, 10),
        (b"RB", 5, 10, 7, 0, 65_536, 65_526, 11),
    ] {
        assert_eq!(with(1, wrong), Judged::WrongPiece(1));
    }
    // Past the end of the read.
    assert_eq!(with(3, (b"RZ", 6, 40, 0, 0, 0, 0, 61)), Judged::WrongPiece(3));
    assert_eq!(said(&[plan(&OURS), vec![b'R']].concat()), Judged::WrongPiece(4));
}

#[test]
fn wrong_byte() {
    let [a, b, c, d] = OURS;
    assert_eq!(said(&[]), Judged::WrongByte(0));
    assert_eq!(said(&plan(&[a, b, d])), Judged::WrongByte(20));
    assert_eq!(said(&plan(&[a, b, c, d, c])), Judged::WrongByte(20));
    assert_eq!(with(3, (b"RZ", 6, 40, 0, 0, 0, 0, 59)), Judged::WrongByte(99));
    // A wrong piece comes first, wherever it stands.
    let wrong = (b"RZ", 5, 40, 0, 0, 0, 0, 60);
    assert_eq!(said(&plan(&[c, b, wrong])), Judged::WrongPiece(2));
}

#[test]
fn empty_read() {
    let judge = |plan: &[u8]| judge_plan(&[], &[0], 5, 5 * CHUNK, BLOCK, 0, 9, plan);
    assert_eq!(judge(&[]), Ok(Judged::Accepted));
    assert_eq!(judge(&[0; 33]), Ok(Judged::WrongPiece(0)));
    assert_eq!(judge(&plan(&OURS[..1])), Ok(Judged::WrongPiece(0)));
}

/// Every list is checked, whatever is wrong with the plan, and the first refused one is told.
#[test]
fn refusals() {
    let (good, bad): (Row, Row) = ((0, 7, 10, 4, 6), (0, 7, 10, 4, 7));
    let (lists, lengths) = joined(&[list(&[good]), list(&[good, bad]), list(&[bad])]);
    let past = 1 << 32;
    let right = plan(&[(b"RB", 5, 0, 7, 0, 10, 4, 5)]);
    for plan in [&right[..], &[], &[0; 33], &[0; 34]] {
        let told = |first_index, block_size| {
            judge_plan(&lists, &lengths, first_index, u64::MAX, block_size, 0, 5, plan)
        };
        let none = |refusal| Err(ListRefusal { refusal, index: None });
        assert_eq!(told(past - 2, 0), none(Refusal::ChunkLists));
        assert_eq!(told(past - 3, 0), none(Refusal::BlockSize));
        let refusal = Refusal::SliceEnd { place: 1 };
        assert_eq!(told(5, BLOCK), Err(ListRefusal { refusal, index: Some(6) }));
    }
    let (first, length) = (&lists[..24], &lengths[..1]);
    assert_eq!(judge_plan(first, length, 5, u64::MAX, BLOCK, 0, 5, &right), Ok(Judged::Accepted));
}
