//! Plans made elsewhere, by hand: every reason for which a piece is wrong in itself.

mod common;
use common::files::{Joined, Line};
use common::judged::*;
use common::*;
use second::Judged::Accepted;
use second::Location::{Object, Zeros};
use second::{read_plan_bytes, Judged, Location, Wrong};

/// 10 bytes of nothing, 20 of slice 7 and 10 of zeros, at the end of chunk 5; and at the beginning of
/// chunk 6 slice 7 goes on.
fn two() -> Joined {
    let (slice, zeros) = ((CHUNK - 30, 7, 100, 40, 20), (CHUNK - 10, 0, 0, 0, 10));
    Joined::of_rows(&[&[slice, zeros], &[(0, 7, 100, 60, 40)]])
}

const READ: (u64, u64) = (CHUNK - 40, 60);

fn object(at: u64) -> Location {
    Object { id: 7, block: 0, length: 100, at }
}

fn ours() -> [Line; 4] {
    [(5, 0, Zeros, 10), (5, 10, object(40), 20), (5, 30, Zeros, 10), (6, 40, object(60), 20)]
}

/// Our plan with another piece in the place of this one.
fn with(number: usize, line: Line) -> Judged {
    let mut lines = ours();
    lines[number] = line;
    of(&two().file(5, u64::MAX), READ, &lines)
}

/// Our plan with other bytes at a place of this piece.
fn changed(number: usize, at: usize, bytes: &[u8]) -> Judged {
    let mut plan = plan(&ours());
    plan[34 * number + at..][..bytes.len()].copy_from_slice(bytes);
    said(&two().file(5, u64::MAX), READ, &plan)
}

#[test]
fn ours_in_any_cut_and_order() {
    let two = two();
    let file = two.file(5, u64::MAX);
    let [a, b, c, d] = ours();
    assert_eq!(of(&file, READ, &[a, b, c, d]), Accepted);
    assert_eq!(of(&file, READ, &[d, c, b, a]), Accepted);
    assert_eq!(of(&file, READ, &[c, a, d, b]), Accepted);
    let cut = [
        (5, 4, Zeros, 6),
        (5, 29, object(59), 1),
        d,
        (5, 0, Zeros, 4),
        c,
        (5, 10, object(40), 7),
        (5, 17, object(47), 12),
    ];
    assert_eq!(of(&file, READ, &cut), Accepted);
}

/// A chunk's read plan is a plan of the file that ends where the chunk's length says.
#[test]
fn plan_of_one_chunk() {
    let list = list_of_000();
    for (index, chunk_len) in [(0, CHUNK), (7, 20 * MIB), (4_294_967_295, 30 * MIB + 1)] {
        let (start, count) = (15 * MIB, 20 * MIB);
        let plan = read_plan_bytes(&list, index, chunk_len, BLOCK, start, count).expect("a plan");
        let chunks = Joined::new(std::slice::from_ref(&list));
        let file = chunks.file(index, index * CHUNK + chunk_len);
        assert_eq!(said(&file, (start, count), &plan), Accepted);
    }
}

#[test]
fn length_0() {
    assert_eq!(with(0, (5, 0, Zeros, 0)), wrong(0, Wrong::Empty));
    assert_eq!(with(3, (6, 40, object(60), 0)), wrong(3, Wrong::Empty));
    // Beside a plan that covers everything, and at the read's end.
    let two = two();
    for place in [0, 10, 60] {
        let lines = [&ours()[..], &[(5, place, Zeros, 0)]].concat();
        assert_eq!(of(&two.file(5, u64::MAX), READ, &lines), wrong(4, Wrong::Empty));
    }
}

#[test]
fn cut_short() {
    let two = two();
    let file = two.file(5, u64::MAX);
    let whole = plan(&ours());
    for left in 1..34 {
        assert_eq!(said(&file, READ, &whole[..left]), wrong(0, Wrong::CutShort));
        assert_eq!(said(&file, READ, &whole[..34 + left]), wrong(1, Wrong::CutShort));
        // Behind a plan that covers everything, and whatever the bytes are.
        let longer = [&whole[..], &whole[..left]].concat();
        assert_eq!(said(&file, READ, &longer), wrong(4, Wrong::CutShort));
        let longer = [whole.clone(), vec![0; left]].concat();
        assert_eq!(said(&file, READ, &longer), wrong(4, Wrong::CutShort));
    }
    // An earlier piece wins.
    let mut spoilt = whole.clone();
    spoilt[34] = b'Q';
    spoilt.push(b'R');
    assert_eq!(said(&file, READ, &spoilt), wrong(1, Wrong::Mark));
}

#[test]
fn unknown_mark() {
    for mark in [b"RA", b"Rb", b"rZ", b"BR", b"ZR", b"CJ", b"\0\0", b"R\0"] {
        assert_eq!(changed(2, 0, mark), wrong(2, Wrong::Mark));
        assert_eq!(changed(1, 0, mark), wrong(1, Wrong::Mark));
    }
}

#[test]
fn zeros_with_a_number_set() {
    // Each byte of id, block, block length and place in block.
    for at in 10..30 {
        assert_eq!(changed(0, at, &[1]), wrong(0, Wrong::ZerosOfObject));
    }
    // The numbers of the object that lies there.
    assert_eq!(changed(1, 0, b"RZ"), wrong(1, Wrong::ZerosOfObject));
}

#[test]
fn outside_the_read() {
    assert_eq!(with(3, (6, 40, object(60), 21)), wrong(3, Wrong::Outside));
    assert_eq!(with(3, (6, 60, object(80), 1)), wrong(3, Wrong::Outside));
    assert_eq!(with(3, (6, 61, object(81), 1)), wrong(3, Wrong::Outside));
    // In 32 bits the sum would lie in the read.
    let past = 4_294_967_295;
    assert_eq!(with(3, (6, 40, object(60), past - 19)), wrong(3, Wrong::Outside));
    assert_eq!(with(0, (5, past, Zeros, 11)), wrong(0, Wrong::Outside));
    assert_eq!(with(0, (5, past, Zeros, past)), wrong(0, Wrong::Outside));
}

#[test]
fn another_chunk() {
    assert_eq!(with(0, (6, 0, Zeros, 10)), elsewhere(0, 5, Zeros));
    assert_eq!(with(0, (4, 0, Zeros, 10)), elsewhere(0, 5, Zeros));
    assert_eq!(with(0, (0, 0, Zeros, 10)), elsewhere(0, 5, Zeros));
    assert_eq!(with(3, (5, 40, object(60), 20)), elsewhere(3, 6, object(60)));
    assert_eq!(with(3, (4_294_967_295, 40, object(60), 20)), elsewhere(3, 6, object(60)));
}

#[test]
fn another_place() {
    for other in [
        Object { id: 8, block: 0, length: 100, at: 40 },
        Object { id: 7 + (1 << 32), block: 0, length: 100, at: 40 },
        Object { id: 0, block: 0, length: 100, at: 40 },
        Object { id: 7, block: 1, length: 100, at: 40 },
        Object { id: 7, block: 0, length: 99, at: 40 },
        Object { id: 7, block: 0, length: 100, at: 39 },
        Object { id: 7, block: 0, length: 100, at: 41 },
        Zeros,
    ] {
        assert_eq!(with(1, (5, 10, other, 20)), elsewhere(1, 5, object(40)));
    }
    // Moved as a whole.
    assert_eq!(with(1, (5, 11, object(40), 19)), elsewhere(1, 5, object(41)));
    assert_eq!(with(1, (5, 9, object(39), 21)), elsewhere(1, 5, Zeros));
    // Zeros, told to be an object.
    assert_eq!(with(2, (5, 30, object(60), 10)), elsewhere(2, 5, Zeros));
    let none = Object { id: 0, block: 0, length: 0, at: 0 };
    assert_eq!(with(2, (5, 30, none, 10)), elsewhere(2, 5, Zeros));
}

#[test]
fn one_byte_too_long() {
    assert_eq!(with(0, (5, 0, Zeros, 11)), elsewhere_from(0, 10, 5, object(40)));
    assert_eq!(with(1, (5, 10, object(40), 21)), elsewhere_from(1, 20, 5, Zeros));
    // Over the edge of the chunk, where the object's next byte is.
    assert_eq!(with(2, (5, 30, Zeros, 11)), elsewhere_from(2, 10, 6, object(60)));
}

/// Zeros on both sides of an edge, and an object whose next byte is behind it.
#[test]
fn over_a_chunks_edge() {
    let zeros = Joined::of_rows(&[&[(CHUNK - 4, 0, 0, 0, 4)], &[]]);
    let slice = Joined::of_rows(&[&[(CHUNK - 8, 7, 100, 40, 8)], &[(0, 7, 100, 48, 8)]]);
    for (chunks, from) in [(zeros, [Zeros, Zeros]), (slice, [object(45), object(48)])] {
        let file = chunks.file(5, u64::MAX);
        let read = (CHUNK - 3, 6);
        let apart = [(5, 0, from[0], 3), (6, 3, from[1], 3)];
        assert_eq!(of(&file, read, &apart), Accepted);
        assert_eq!(of(&file, read, &[(5, 0, from[0], 6)]), elsewhere_from(0, 3, 6, from[1]));
        assert_eq!(of(&file, read, &[(6, 0, from[0], 6)]), elsewhere(0, 5, from[0]));
    }
}

/// A block's end, and two sizes of a block that are one object each.
#[test]
fn over_a_blocks_edge() {
    let chunks = Joined::of_rows(&[&[(0, 7, 2 * BLOCK, 0, 2 * BLOCK)]]);
    let file = chunks.file(0, u64::MAX);
    let block = |block, at| Object { id: 7, block, length: BLOCK, at };
    let read = (BLOCK - 2, 5);
    let apart = [(0, 0, block(0, BLOCK - 2), 2), (0, 2, block(1, 0), 3)];
    assert_eq!(of(&file, read, &apart), Accepted);
    let over = [(0, 0, block(0, BLOCK - 2), 5)];
    assert_eq!(of(&file, read, &over), elsewhere_from(0, 2, 0, block(1, 0)));
}

/// What is nothing and what is zeros reads alike, so one piece may hold both.
#[test]
fn zeros_and_holes_in_one_piece() {
    let chunks = Joined::of_rows(&[&[(4, 0, 0, 0, 4), (12, 0, 3, 0, 3)]]);
    let file = chunks.file(0, u64::MAX);
    for cuts in [&[20][..], &[4, 16], &[6, 7, 7], &[1, 1, 18]] {
        let mut place = 0;
        let mut lines: Vec<Line> = Vec::new();
        for len in cuts {
            lines.push((0, place, Zeros, *len));
            place += len;
        }
        assert_eq!(of(&file, (0, 20), &lines), Accepted);
    }
}
