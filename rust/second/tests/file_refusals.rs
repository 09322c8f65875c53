//! Refusals of a read across chunks: 21 at its edges, and which list is at fault.

mod common;
use common::files::*;
use common::*;
use second::{file_plan, File, ListRefusal};

const GOOD: Row = (0, 7, 10, 4, 6);
/// Refused with 6.
const BAD: Row = (0, 7, 10, 4, 7);

fn refused(file: &File, block_size: u64) -> Option<ListRefusal> {
    file_plan(file, block_size, 0, u64::MAX, &mut []).err()
}

fn lent<'a>(lists: &'a [u8], lengths: &'a [u64]) -> File<'a> {
    File { lists, lengths, first_index: 5, file_len: 0 }
}

#[test]
fn number_of_lists() {
    assert_eq!(refused(&lent(&[], &[]), BLOCK), Some(of_none(21)));
    assert_eq!(refused(&lent(&[0; 24], &[]), BLOCK), Some(of_none(21)));
    for lists in [1, 2, 15, 16] {
        assert_eq!(refused(&lent(&[], &vec![0; lists]), BLOCK), None);
    }
    for lists in [17, 18, 300] {
        assert_eq!(refused(&lent(&[], &vec![0; lists]), BLOCK), Some(of_none(21)));
    }
}

#[test]
fn lengths_add_up() {
    for lengths in [[24, 24], [0, 48], [48, 0]] {
        assert_eq!(refused(&lent(&[0; 48], &lengths), BLOCK), None);
    }
    for lengths in [[24, 23], [24, 25], [0, 0], [48, 24], [u64::MAX, 49], [1 << 63, (1 << 63) + 48]]
    {
        assert_eq!(refused(&lent(&[0; 48], &lengths), BLOCK), Some(of_none(21)));
    }
    assert_eq!(refused(&lent(&[], &[1 << 63, 1 << 63]), BLOCK), Some(of_none(21)));
    assert_eq!(refused(&lent(&[], &[1 << 32]), BLOCK), Some(of_none(21)));
    // Sixteen lengths that wrap to the bytes lent.
    let mut sixteen = [1 << 60; 16];
    sixteen[3] += 24;
    assert_eq!(refused(&lent(&[0; 24], &sixteen), BLOCK), Some(of_none(21)));
}

/// The last list's index counts, also where the read is empty.
#[test]
fn index_past_32_bits() {
    let most = 4_294_967_295;
    let lengths = [0; 16];
    let with = |first_index, lists| {
        refused(&File { lists: &[], lengths: &lengths[..lists], first_index, file_len: 0 }, BLOCK)
    };
    for lists in 1..=16 {
        assert_eq!(with(most + 1 - lists as u64, lists), None);
        for first_index in [most + 2 - lists as u64, most + 1, 1 << 63, u64::MAX - 1, u64::MAX] {
            assert_eq!(with(first_index, lists), Some(of_none(21)));
        }
    }
}

/// A length that is no multiple of 24 is that list's own, though the sum is one.
#[test]
fn lists_of_odd_length() {
    assert_eq!(refused(&lent(&[0; 48], &[24, 23, 1]), BLOCK), Some(of_list(6, 1, 0)));
    assert_eq!(refused(&lent(&[0; 48], &[0, 0, 1, 47]), BLOCK), Some(of_list(7, 1, 0)));
}

/// Each list may have 2,048 records, and all together more.
#[test]
fn records_of_each_list() {
    let (most, more) = (2_048 * 24, 2_049 * 24);
    assert_eq!(refused(&lent(&[0; 2 * 2_048 * 24], &[most, most]), BLOCK), None);
    assert_eq!(refused(&lent(&[0; 4_097 * 24], &[most, more]), BLOCK), Some(of_list(6, 2, 0)));
}

/// The place is counted in the record's own list.
#[test]
fn first_refused_list_decides() {
    let refusal = |rows: &[&[Row]]| refused(&Joined::of_rows(rows).file(5, 0), BLOCK);
    assert_eq!(refusal(&[&[GOOD, BAD], &[BAD]]), Some(of_list(5, 6, 1)));
    assert_eq!(refusal(&[&[GOOD, GOOD], &[GOOD, GOOD, BAD]]), Some(of_list(6, 6, 2)));
    assert_eq!(refusal(&[&[], &[], &[BAD]]), Some(of_list(7, 6, 0)));
    // 16 of an earlier list comes before 3 of a later one.
    let (two, past) = ([GOOD, (0, 7, 11, 0, 1)], [(CHUNK, 7, 10, 0, 1)]);
    assert_eq!(refusal(&[&two, &past]), Some(of_list(5, 16, 1)));
    assert_eq!(refusal(&[&past, &two]), Some(of_list(5, 3, 0)));
    // And before 1 or 2 of a later one.
    let odd = |length| Joined::new(&[list(&two), vec![0; length]]);
    for length in [23, 2_049 * 24] {
        assert_eq!(refused(&odd(length).file(5, 0), BLOCK), Some(of_list(5, 16, 1)));
    }
}

/// Two lists may give one slice two sizes.
#[test]
fn sizes_are_of_one_list() {
    let chunks = Joined::of_rows(&[&[(0, 7, 10, 0, 1)], &[(0, 7, 11, 0, 1)]]);
    assert_eq!(refused(&chunks.file(0, 0), BLOCK), None);
}

/// Lists that the read doesn't touch are checked too.
#[test]
fn untouched_lists() {
    for place in 0..3 {
        let mut rows = [&[GOOD][..]; 3];
        rows[place] = &[BAD];
        let chunks = Joined::of_rows(&rows);
        for (file_len, start, count) in [(0, 0, 9), (u64::MAX, 0, 0), (u64::MAX, CHUNK, 1)] {
            let file = chunks.file(9, file_len);
            let refusal = of_list(9 + place as u64, 6, 0);
            assert_eq!(file_plan(&file, BLOCK, start, count, &mut []), Err(refusal));
        }
    }
}

#[test]
fn order() {
    let chunks = Joined::of_rows(&[&[GOOD], &[BAD]]);
    let last = 4_294_967_295;
    assert_eq!(refused(&chunks.file(last, u64::MAX), 0), Some(of_none(21)));
    assert_eq!(refused(&chunks.file(last - 1, u64::MAX), 0), Some(of_none(8)));
    assert_eq!(refused(&chunks.file(last - 1, u64::MAX), BLOCK), Some(of_list(last, 6, 0)));
    let sound = Joined::of_rows(&[&[GOOD], &[GOOD]]);
    assert_eq!(refused(&sound.file(9, u64::MAX), BLOCK), Some(of_none(12)));
}

#[test]
fn short_buffer_keeps_its_bytes() {
    let chunks = Joined::of_rows(&[&[], &[]]);
    let file = chunks.file(0, u64::MAX);
    let mut out = [0xee; 69];
    assert_eq!(file_plan(&file, BLOCK, 0, u64::MAX, &mut out[..67]), Err(of_none(12)));
    assert_eq!(out, [0xee; 69]);
    assert_eq!(file_plan(&file, BLOCK, 0, u64::MAX, &mut out), Ok(68));
    assert_eq!(out[68], 0xee);
}
