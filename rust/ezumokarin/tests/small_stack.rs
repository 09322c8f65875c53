//! The stack that the header states, less than 96 KiB, is enough for every call on the longest lists:
//! the thread that makes them has as much, and needs a part of it itself.

mod common;

use std::thread::Builder;

use common::list;
use ezumokarin::*;

const STATED: usize = 96 * 1_024;
const BLOCK: u64 = 65_536;
/// 1,153 x 1,151 is 2,047 more than a multiple of 2,048: the slice at the highest position.
const HIGHEST: u64 = 5_000 - 1_153;

/// Ids that fall, so that the check has to search for two sizes, and positions in no order, so that
/// they have to be sorted.
#[test]
fn every_call_in_the_stated_stack() {
    let rows: Vec<_> =
        (0..2_048).map(|i| (2 * (i * 1_151 % 2_048) + 1, 5_000 - u64::from(i), 1, 0, 1)).collect();
    let list = list(&rows);
    let (lists, lengths) = (list.repeat(16), [49_152; 16]);
    let (mut out, mut new_list) = (vec![0; 16 * 4_097 * Piece::LEN], vec![0; 49_152]);
    let calls = move || {
        assert_eq!(check(&list), Ok(2_048));
        assert_eq!(view(&list, CHUNK, &mut out), Ok(4_097 * Record::LEN));
        let last = find(&out[..4_097 * Record::LEN], 4_097, CHUNK - 1);
        assert_eq!(last.map(|found| found.map(|last| last.segment)), Ok(Some(4_096)));
        assert!(tidy(&list, &mut out).is_ok());
        assert!(read_plan(&list, 7, CHUNK, BLOCK, 0, CHUNK, &mut out).is_ok());
        assert!(compact(&list, 7, BLOCK, 2_048, 1, &mut out, &mut new_list).is_ok());
        let across = file_plan(&lists, &lengths, 7, u64::MAX, BLOCK, 0, u64::MAX, &mut out);
        assert_eq!(across, Ok(16 * 4_097 * Piece::LEN));
        assert_eq!(added(&list[..24], &list), Ok(Added::Records(&list[24..])));
        assert_eq!(next_piece(&list, 7, CHUNK, BLOCK, 0, CHUNK, 4_095), slice_byte(7, 4_095));
        let last = 15 * CHUNK + 4_095;
        let across = next_file_piece(&lists, &lengths, 7, u64::MAX, BLOCK, 0, u64::MAX, last);
        assert_eq!(across, slice_byte(22, last));
    };
    in_the_stated_stack(calls);
}

/// A plan of more pieces than any window of the judge can hold, from its end to its beginning, and in
/// no order.
#[test]
fn judged_in_the_stated_stack() {
    let rows: Vec<_> =
        (0..2_048).map(|i| (2 * (i * 1_151 % 2_048) + 1, 5_000 - u64::from(i), 1, 0, 1)).collect();
    let (lists, lengths) = (list(&rows).repeat(16), [49_152; 16]);
    let mut plan = vec![0; 2 * 4_097 * Piece::LEN];
    in_the_stated_stack(move || {
        let (start, count) = (14 * CHUNK, u64::MAX);
        let written = file_plan(&lists, &lengths, 7, u64::MAX, BLOCK, start, count, &mut plan);
        assert_eq!(written, Ok(plan.len()));
        let falling: Vec<u8> = plan.rchunks(Piece::LEN).flatten().copied().collect();
        let judge = |plan| judge_plan(&lists, &lengths, 7, u64::MAX, BLOCK, start, count, plan);
        assert_eq!(judge(&plan), Ok(Judged::Accepted));
        assert_eq!(judge(&falling), Ok(Judged::Accepted));
        assert_eq!(judge(&falling[Piece::LEN..]), Ok(Judged::WrongByte(CHUNK + 4_096)));
        assert_eq!(judge(&falling[1..]), Ok(Judged::WrongPiece(0)));
        let nth = |i: usize| &plan[i * Piece::LEN..][..Piece::LEN];
        let mixed: Vec<u8> = (0..8_194).flat_map(|i| nth(i * 1_151 % 8_194)).copied().collect();
        assert_eq!(judge(&mixed), Ok(Judged::Accepted));
        assert_eq!(judge(&mixed[Piece::LEN..]), Ok(Judged::WrongByte(0)));
    });
}

/// The byte at position 4,095 of a chunk, which is of one slice, alone.
fn slice_byte<E>(index: u32, place: u64) -> Result<Option<Next>, E> {
    let from = Location::Object { id: HIGHEST, block: 0, length: 1, at: 0 };
    let piece = Piece { index, place: place as u32, from, len: 1 };
    Ok(Some(Next { piece, next: place + 1 }))
}

/// Zeros and holes in turn, in no order: the whole chunk is one piece that joins 4,097 runs.
#[test]
fn joined_piece_in_the_stated_stack() {
    let rows: Vec<_> = (0..2_048).map(|i| (2 * (i * 1_151 % 2_048) + 1, 0, 0, 0, 1)).collect();
    let list = list(&rows);
    let (lists, lengths) = (list.repeat(16), [49_152; 16]);
    in_the_stated_stack(move || {
        for at in [0, 1, 2_000] {
            assert_eq!(next_piece(&list, 7, CHUNK, BLOCK, 0, CHUNK, at), rest_of_zeros(7, at));
            let at = 15 * CHUNK + at;
            let across = next_file_piece(&lists, &lengths, 7, u64::MAX, BLOCK, 0, u64::MAX, at);
            assert_eq!(across, rest_of_zeros(22, at));
        }
    });
}

/// From a place up to the end of its chunk.
fn rest_of_zeros<E>(index: u32, place: u64) -> Result<Option<Next>, E> {
    let len = (CHUNK - place % CHUNK) as u32;
    let piece = Piece { index, place: place as u32, from: Location::Zeros, len };
    Ok(Some(Next { piece, next: place + u64::from(len) }))
}

fn in_the_stated_stack(calls: impl FnOnce() + Send + 'static) {
    let thread = Builder::new().stack_size(STATED).spawn(calls).expect("a thread");
    thread.join().expect("every call in the stated stack");
}
