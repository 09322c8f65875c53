//! Each refusal at its edge, the order of several, and buffers that stay.

mod common;
use common::*;
use second::*;

/// The first index past 32 bits.
const PAST: u64 = 4_294_967_296;

#[test]
fn sums_are_those_of_mathematics() {
    let most = 4_294_967_295;
    assert_eq!(check(&list(&[(most, 1, 9, 0, 2)])), Err(no_at(3, 0)));
    assert_eq!(check(&list(&[(0, 1, 9, most, 2)])), Err(no_at(6, 0)));
}

#[test]
fn empty_records_are_checked_too() {
    assert_eq!(check(&list(&[(CHUNK, 1, 4, 4, 0)])), Ok(1));
    assert_eq!(check(&list(&[(CHUNK + 1, 1, 4, 4, 0)])), Err(no_at(3, 0)));
    assert_eq!(check(&list(&[(0, 1, 4, 5, 0)])), Err(no_at(6, 0)));
    assert_eq!(check(&list(&[(0, 0, 1, 0, 0)])), Err(no_at(5, 0)));
    assert_eq!(check(&list(&[(0, 0, 0, 1, 0)])), Err(no_at(5, 0)));
}

#[test]
fn zeros_have_size_0_or_len_and_off_0() {
    for size in [0, 8, CHUNK] {
        let len = size.max(8);
        assert_eq!(check(&list(&[(0, 0, size, 0, len)])), Ok(1));
        assert_eq!(check(&list(&[(0, 0, size, 1, len)])), Err(no_at(5, 0)));
    }
    for size in [1, 7, 9, CHUNK] {
        assert_eq!(check(&list(&[(0, 0, size, 0, 8)])), Err(no_at(5, 0)));
    }
    assert_eq!(check(&list(&[(0, 0, CHUNK + 1, 0, 8)])), Err(no_at(4, 0)));
    assert_eq!(check(&list(&[(1, 0, CHUNK, 1, CHUNK)])), Err(no_at(3, 0)));
}

#[test]
fn first_bad_record_and_in_it_the_first_refusal() {
    let good = (0, 1, 9, 0, 9);
    assert_eq!(
        check(&list(&[good, (0, 1, CHUNK + 1, 0, 1), (CHUNK, 1, 9, 0, 1)])),
        Err(no_at(4, 1))
    );
    assert_eq!(check(&list(&[good, good, (CHUNK, 0, CHUNK + 1, 1, 1)])), Err(no_at(3, 2)));
    assert_eq!(check(&list(&[(0, 0, CHUNK + 1, 1, 1)])), Err(no_at(4, 0)));
    assert_eq!(check(&list(&[(0, 1, CHUNK + 1, CHUNK + 1, 1)])), Err(no_at(4, 0)));
}

/// One slice, one size: the place is that of the first record that disagrees with an earlier one.
#[test]
fn slice_has_one_size() {
    let (small, large) = ((0, 7, 9, 0, 9), (0, 7, 10, 0, 9));
    assert_eq!(check(&list(&[small, small, (20, 7, 9, 5, 4)])), Ok(3));
    assert_eq!(check(&list(&[small, large])), Err(no_at(16, 1)));
    assert_eq!(check(&list(&[large, small])), Err(no_at(16, 1)));
    assert_eq!(check(&list(&[small, small, large, large, small])), Err(no_at(16, 2)));
    // Neighbours or not, and whatever stands between.
    let others = [(3, 8, 10, 0, 1), (3, 0, 0, 0, 1), (3, 9, 12, 0, 1)];
    let apart = [&[small], &others[..], &[large], &[(0, 8, 9, 0, 1)]].concat();
    assert_eq!(check(&list(&apart)), Err(no_at(16, 4)));
    // Of two slices with two sizes each, the first record that disagrees.
    assert_eq!(check(&list(&[small, others[0], (0, 8, 9, 0, 1), large])), Err(no_at(16, 2)));
    // Ids that agree in one half are two slices.
    assert_eq!(check(&list(&[small, (0, 7 + (1 << 32), 10, 0, 9), (0, 7 << 32, 8, 0, 1)])), Ok(3));
}

#[test]
fn empty_records_have_sizes_too() {
    let (slice, empty) = ((0, 7, 9, 0, 9), (0, 7, 10, 0, 0));
    assert_eq!(check(&list(&[slice, empty])), Err(no_at(16, 1)));
    assert_eq!(check(&list(&[empty, slice])), Err(no_at(16, 1)));
    assert_eq!(check(&list(&[empty, empty])), Ok(2));
    assert_eq!(check(&list(&[empty, (5, 7, 11, 0, 0)])), Err(no_at(16, 1)));
}

#[test]
fn zeros_are_of_no_slice() {
    assert_eq!(check(&list(&[(0, 0, 0, 0, 8), (0, 0, 8, 0, 8), (0, 0, 9, 0, 9)])), Ok(3));
}

/// A later record's 3 to 6 comes before an earlier one's 16, and 16 before the rest.
#[test]
fn order_of_two_sizes() {
    let both = [(0, 7, 9, 0, 9), (0, 7, 10, 0, 9)];
    for (number, bad) in [
        (3, (CHUNK, 7, 9, 0, 1)),
        (4, (0, 7, CHUNK + 1, 0, 1)),
        (5, (0, 0, 1, 0, 8)),
        (6, (0, 7, 9, 9, 1)),
    ] {
        assert_eq!(check(&list(&[both[0], both[1], bad])), Err(no_at(number, 2)));
    }
    let list = list(&both);
    assert_eq!(view(&list, CHUNK + 1, &mut []), Err(no(7)));
    assert_eq!(view(&list, CHUNK, &mut []), Err(no_at(16, 1)));
    assert_eq!(tidy(&list, &mut []), Err(no_at(16, 1)));
    assert_eq!(read_plan(&list, 0, 9, BLOCK, 0, 9, &mut []), Err(no_at(16, 1)));
    for (block_size, refusal) in [(0, no(8)), (BLOCK, no_at(16, 1))] {
        assert_eq!(compact(&list, 0, block_size, 3, 7, &mut [], &mut []), Err(refusal));
    }
}

#[test]
fn order_of_the_inputs() {
    let plan = |list: &[u8], index, l, b| read_plan(list, index, l, b, 0, 1, &mut []);
    assert_eq!(plan(&[0; 49_177], PAST, CHUNK + 1, 0), Err(no(7)));
    assert_eq!(plan(&[0; 49_177], PAST, CHUNK, 0), Err(no(21)));
    assert_eq!(plan(&[0; 49_177], PAST - 1, CHUNK, 0), Err(no(8)));
    assert_eq!(plan(&[0; 49_177], 0, CHUNK, BLOCK), Err(no(1)));
    assert_eq!(plan(&[0xff; 49_176], 0, CHUNK, BLOCK), Err(no(2)));
    assert_eq!(plan(&[0xff; 24], 0, CHUNK, BLOCK), Err(no_at(3, 0)));
    assert_eq!(plan(&[0; 24], 0, CHUNK, BLOCK), Err(no(12)));
}

/// Also where the answer would be empty. The key writers have another refusal for it.
#[test]
fn index_past_32_bits() {
    for index in [PAST, PAST + 1, u64::MAX] {
        assert_eq!(read_plan(&[], index, 0, BLOCK, 0, 0, &mut []), Err(no(21)));
        assert_eq!(compact(&[], index, BLOCK, 0, 1, &mut [], &mut []), Err(no(21)));
        assert_eq!(compact(&[0; 23], index, 0, 9, 0, &mut [], &mut []), Err(no(21)));
        assert_eq!(redis_key(1, index), Err(no(13)));
        assert_eq!(tkv_key(1, index), Err(no(13)));
    }
    for index in [0, PAST - 1] {
        assert_eq!(read_plan(&[], index, 0, BLOCK, 0, 0, &mut []), Ok(0));
        let none = Compacted { plan: 0, list: 0 };
        assert_eq!(compact(&[], index, BLOCK, 0, 1, &mut [], &mut []), Ok(none));
    }
}

#[test]
fn block_sizes() {
    let plan = |b| read_plan(&[], 0, 0, b, 0, 0, &mut []);
    let mut allowed = 65_536;
    while allowed <= 16_777_216 {
        assert_eq!(plan(allowed), Ok(0));
        assert_eq!(plan(allowed - 1), Err(no(8)));
        assert_eq!(plan(allowed + 1), Err(no(8)));
        allowed *= 2;
    }
    for size in [0, 1, 32_768, 33_554_432, 1 << 63, u64::MAX] {
        assert_eq!(plan(size), Err(no(8)));
    }
}

/// A slice under zeros at every second byte: as many runs as the slice has bytes.
#[test]
fn tidied_list_may_be_too_long() {
    let comb = |bytes: u64| {
        let mut rows = vec![(0, 7, bytes, 0, bytes)];
        rows.extend((0..bytes / 2).map(|i| (2 * i + 1, 0, 0, 0, 1)));
        list(&rows)
    };
    let mut out = vec![0xee; 100_000];
    for bytes in [2_049, 4_095] {
        assert_eq!(tidy(&comb(bytes), &mut out), Err(no(11)));
        assert_eq!(tidy(&comb(bytes), &mut []), Err(no(11)));
    }
    assert!(out.iter().all(|byte| *byte == 0xee));
    assert_eq!(view(&comb(4_095), 4_095, &mut out), Ok(4_095 * 24));
    assert_eq!(tidy(&comb(2_048), &mut out), Ok(2_048 * 24));
    assert_eq!(tidy(&comb(2_047), &mut out), Ok(2_047 * 24));
}

#[test]
fn tidied_list_has_no_uncovered_runs() {
    let mut out = [0xee; 100];
    let list = list(&[(5, 0, 0, 0, 5), (20, 7, 10, 0, 10), (24, 7, 10, 4, 2), (9, 8, 1, 0, 0)]);
    assert_eq!(tidy(&list, &mut out), Ok(48));
    assert_eq!(rows(&out[..48]), [(5, 0, 0, 0, 5), (20, 7, 10, 0, 10)]);
    assert!(out[48..].iter().all(|byte| *byte == 0xee));
}

#[test]
fn short_buffers_keep_their_bytes() {
    let list = list(&[(8, 7, 10, 0, 4)]);
    let (mut plan, mut new_list) = ([0xee; 34], [0xee; 23]);
    assert_eq!(compact(&list, 0, BLOCK, 1, 9, &mut plan, &mut new_list), Err(no(12)));
    assert_eq!((plan, new_list), ([0xee; 34], [0xee; 23]));
    let (mut plan, mut new_list) = ([0xee; 33], [0xee; 24]);
    assert_eq!(compact(&list, 0, BLOCK, 1, 9, &mut plan, &mut new_list), Err(no(12)));
    assert_eq!((plan, new_list), ([0xee; 33], [0xee; 24]));
}

#[test]
fn wrong_numbers_come_before_short_buffers() {
    assert_eq!(write_object_name(0, 0, 1, &mut []), Err(no(13)));
    assert_eq!(write_object_name(1, 0, 1, &mut []), Err(no(12)));
    assert_eq!(write_full_name(b"", 1, 0, 1, &mut []), Err(no(13)));
    assert_eq!(write_full_name(b"v", 1, 0, 1, &mut [0; 17]), Err(no(12)));
    assert_eq!(write_full_name(b"v", 1, 0, 1, &mut [0; 18]), Ok(18));
    assert_eq!(write_redis_key(0, 1 << 32, &mut []), Err(no(13)));
    assert_eq!(write_redis_key(0, 0, &mut [0; 3]), Err(no(12)));
    assert_eq!(write_tkv_key(0, 0, &mut [0; 13]), Err(no(12)));
    assert_eq!(write_tkv_key(0, 0, &mut [0; 14]), Ok(14));
}
