//! Plans made elsewhere, by hand: which byte is missing or doubled, what comes first, and what is
//! refused.

mod common;
use common::files::*;
use common::judged::{elsewhere, held, missing, of, plan, said, wrong};
use common::*;
use second::Judged::Accepted;
use second::Location::{Object, Zeros};
use second::{judge, File, Judged, Wrong};

const READ: (u64, u64) = (0, 30);

/// 10 bytes of nothing, 10 of slice 7 and again nothing.
fn one() -> Joined {
    Joined::of_rows(&[&[(10, 7, 100, 40, 10)]])
}

fn slice(place: u64, len: u64) -> Line {
    (0, place, Object { id: 7, block: 0, length: 100, at: 30 + place }, len)
}

fn zeros(place: u64, len: u64) -> Line {
    (0, place, Zeros, len)
}

fn say(lines: &[Line]) -> Judged {
    of(&one().file(0, u64::MAX), READ, lines)
}

#[test]
fn missing_byte() {
    assert_eq!(say(&[]), missing(0));
    assert_eq!(say(&[slice(10, 10), zeros(20, 10)]), missing(0));
    assert_eq!(say(&[zeros(0, 10), zeros(20, 10)]), missing(10));
    assert_eq!(say(&[zeros(0, 10), slice(10, 10)]), missing(20));
    assert_eq!(say(&[zeros(20, 10), zeros(1, 9), slice(10, 10)]), missing(0));
    assert_eq!(say(&[zeros(20, 9), zeros(0, 10), slice(10, 10)]), missing(29));
    assert_eq!(say(&[zeros(21, 9), zeros(0, 10), slice(10, 10)]), missing(20));
    // Two of them.
    assert_eq!(say(&[zeros(20, 9), zeros(0, 10), slice(10, 9)]), missing(19));
}

#[test]
fn doubled_byte() {
    let ours = [zeros(0, 10), slice(10, 10), zeros(20, 10)];
    assert_eq!(say(&ours), Accepted);
    for more in 0..3 {
        let lines = [&ours[..], &ours[more..=more]].concat();
        assert_eq!(say(&lines), held(10 * more as u64, 2));
    }
    assert_eq!(say(&[&ours[..], &[zeros(29, 1)]].concat()), held(29, 2));
    assert_eq!(say(&[&[zeros(9, 1)], &ours[..]].concat()), held(9, 2));
    assert_eq!(say(&[&[slice(12, 3)], &ours[..], &[slice(14, 6)]].concat()), held(12, 2));
    assert_eq!(say(&[ours, ours, ours].concat()), held(0, 3));
    assert_eq!(say(&vec![zeros(0, 1); 5_000]), held(0, 5_000));
}

/// Whichever has the lower place.
#[test]
fn missing_and_doubled() {
    let (a, b, c) = (zeros(0, 10), slice(10, 10), zeros(20, 10));
    assert_eq!(say(&[a, a, c]), held(0, 2));
    assert_eq!(say(&[a, c, c]), missing(10));
    assert_eq!(say(&[zeros(5, 5), zeros(5, 1), b, c]), missing(0));
    assert_eq!(say(&[zeros(0, 3), zeros(2, 2), b, c]), held(2, 2));
}

/// As many bytes as the read has, and yet not each once.
#[test]
fn sum_of_lengths_alone() {
    assert_eq!(say(&[zeros(0, 10), slice(10, 10), zeros(0, 10)]), held(0, 2));
    assert_eq!(say(&[zeros(0, 5), zeros(4, 5), slice(10, 10), zeros(20, 10)]), held(4, 2));
}

/// The first wrong piece, however low the place of a wrong byte is.
#[test]
fn wrong_piece_before_a_wrong_byte() {
    let (a, b, c) = (zeros(0, 10), slice(10, 10), zeros(20, 10));
    let bad = (1, 20, Zeros, 10);
    assert_eq!(say(&[b, bad]), elsewhere(1, 0, Zeros));
    assert_eq!(say(&[b, b, a, a, bad]), elsewhere(4, 0, Zeros));
    assert_eq!(say(&[b, c, bad, zeros(0, 0)]), elsewhere(2, 0, Zeros));
    assert_eq!(say(&[b, zeros(0, 0), c, bad]), wrong(1, Wrong::Empty));
    let short = [plan(&[b]), vec![b'R']].concat();
    assert_eq!(said(&one().file(0, u64::MAX), READ, &short), wrong(1, Wrong::CutShort));
}

#[test]
fn empty_read() {
    let one = one();
    let nothing =
        [(u64::MAX, (5, 0)), (u64::MAX, (CHUNK, 9)), (0, (0, 9)), (u64::MAX, (u64::MAX, 9))];
    for (file_len, read) in nothing {
        let file = one.file(0, file_len);
        assert_eq!(of(&file, read, &[]), Accepted);
        assert_eq!(of(&file, read, &[zeros(0, 1)]), wrong(0, Wrong::Outside));
        assert_eq!(of(&file, read, &[zeros(0, 0)]), wrong(0, Wrong::Empty));
        for left in 1..34 {
            assert_eq!(said(&file, read, &vec![b'R'; left]), wrong(0, Wrong::CutShort));
        }
    }
}

/// The read is cut to the file's end and to the last list's, and the plan goes up to there.
#[test]
fn cut_reads() {
    let one = one();
    let file = one.file(3, 3 * CHUNK + 12);
    let (zeros, slice) = ((3, 0, Zeros, 10), (3, 10, slice(10, 0).2, 2));
    for count in [12, 13, u64::MAX] {
        assert_eq!(of(&file, (0, count), &[slice, zeros]), Accepted);
        assert_eq!(of(&file, (0, count), &[(3, 10, slice.2, 1), zeros]), missing(11));
        let long = [(3, 10, slice.2, 3), zeros];
        assert_eq!(of(&file, (0, count), &long), wrong(0, Wrong::Outside));
    }
    let file = one.file(3, u64::MAX);
    assert_eq!(of(&file, (CHUNK - 7, u64::MAX), &[(3, 0, Zeros, 7)]), Accepted);
    assert_eq!(of(&file, (CHUNK - 7, u64::MAX), &[(3, 0, Zeros, 6)]), missing(6));
}

/// A long read: 16 chunks of nothing, at the last indexes.
#[test]
fn sixteen_chunks() {
    let last = 4_294_967_295;
    let chunks = Joined::new(&vec![Vec::new(); 16]);
    let file = chunks.file(last - 15, u64::MAX);
    let mut lines: Vec<Line> =
        (0..16).rev().map(|i| (last - 15 + i, i * CHUNK, Zeros, CHUNK)).collect();
    assert_eq!(of(&file, (0, u64::MAX), &lines), Accepted);
    lines[0].3 -= 1;
    assert_eq!(of(&file, (0, u64::MAX), &lines), missing(16 * CHUNK - 1));
}

/// Refusals come before whatever is wrong with the plan, and where nothing is wrong with it.
#[test]
fn refusals_first() {
    let (good, bad) = ((0, 7, 10, 4, 6), (0, 7, 10, 4, 7));
    let chunks = Joined::of_rows(&[&[good], &[good, bad], &[bad]]);
    let last = 4_294_967_293;
    let right = |index| plan(&[(index, 0, Object { id: 7, block: 0, length: 10, at: 4 }, 5)]);
    for plan in [right(last), Vec::new(), vec![0; 33], vec![0; 34], vec![b'R'; 70]] {
        let refused = |first_index, block_size| {
            judge(&chunks.file(first_index, u64::MAX), block_size, 0, 5, &plan)
        };
        assert_eq!(refused(last + 1, 0), Err(of_none(21)));
        assert_eq!(refused(last, 0), Err(of_none(8)));
        assert_eq!(refused(last, BLOCK), Err(of_list(last + 1, 6, 1)));
        let none = File { lists: &[], lengths: &[], first_index: 0, file_len: 0 };
        assert_eq!(judge(&none, BLOCK, 0, 0, &plan), Err(of_none(21)));
    }
}
