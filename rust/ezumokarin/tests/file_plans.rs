//! Reads across chunks, with their pieces by hand.

mod common;

use common::{apart, joined, lines, list, list_of_000};
use ezumokarin::{file_plan, Piece, CHUNK};

const BLOCK: u64 = 4_194_304;
const MIB: u64 = 1_048_576;

/// The read of a file from chunk 5 on has these pieces. The file has `len` bytes from there.
fn reads(lists: &[Vec<u8>], len: u64, (start, count): (u64, u64), plan: &str) {
    let (lists, lengths) = joined(lists);
    let mut out = [0; 20 * Piece::LEN];
    let written = file_plan(&lists, &lengths, 5, 5 * CHUNK + len, BLOCK, start, count, &mut out);
    assert_eq!(lines(&out[..written.expect("a plan")]), plan);
}

/// Document 000's list in two chunks: the read takes 10 MiB of each.
#[test]
fn over_an_edge() {
    let plan = "RZ 5 0 0 0 0 0 10485760
RZ 6 10485760 0 0 0 0 10485760
";
    reads(&[list_of_000(), list_of_000()], 2 * CHUNK, (54 * MIB, 20 * MIB), plan);
    let plan = "RB 5 0 10 7 2097152 1048576 1048576
RZ 5 1048576 0 0 0 0 25165824
RZ 6 26214400 0 0 0 0 10485760
RB 6 36700160 10 0 4194304 0 1048576
";
    reads(&[list_of_000(), list_of_000()], 2 * CHUNK, (39 * MIB, 36 * MIB), plan);
}

/// One slice, whose next byte stands in the next chunk.
#[test]
fn object_over_an_edge() {
    let lists = [list(&[(CHUNK as u32 - 8, 7, 100, 30, 8)]), list(&[(0, 7, 100, 38, 8)])];
    let plan = "RB 5 0 7 0 100 36 2
RB 6 2 7 0 100 38 8
RZ 6 10 0 0 0 0 1
";
    reads(&lists, 2 * CHUNK, (CHUNK - 2, 11), plan);
}

#[test]
fn in_the_last_of_three() {
    let lists = [list_of_000(), Vec::new(), list(&[(0, 9, 9, 0, 9)])];
    let plan = "RB 7 0 9 0 9 4 5
RZ 7 5 0 0 0 0 2
";
    reads(&lists, u64::MAX - 5 * CHUNK, (2 * CHUNK + 4, 7), plan);
    let plan = "RZ 6 0 0 0 0 0 67108864
RB 7 67108864 9 0 9 0 1
";
    reads(&lists, 3 * CHUNK, (CHUNK, CHUNK + 1), plan);
}

/// The file's end in the second chunk, at its edge, in the first one and before it; the last list's
/// end.
#[test]
fn ends() {
    let lists = [Vec::new(), list(&[(0, 7, 9, 0, 9)])];
    for (len, read, plan) in [
        (CHUNK + 4, (CHUNK - 1, 100), "RZ 5 0 0 0 0 0 1\nRB 6 1 7 0 9 0 4\n"),
        (CHUNK, (CHUNK - 1, 100), "RZ 5 0 0 0 0 0 1\n"),
        (CHUNK, (CHUNK, 100), ""),
        (3, (1, u64::MAX), "RZ 5 0 0 0 0 0 2\n"),
        (0, (0, u64::MAX), ""),
        (9 * CHUNK, (2 * CHUNK - 1, u64::MAX), "RZ 6 0 0 0 0 0 1\n"),
        (9 * CHUNK, (2 * CHUNK, 1), ""),
        (9 * CHUNK, (u64::MAX, u64::MAX), ""),
        (9 * CHUNK, (0, 0), ""),
    ] {
        println!("a file of {len} bytes from chunk 5 on");
        reads(&lists, len, read, plan);
    }
    for file_len in [0, 1, 5 * CHUNK - 1] {
        let empty = file_plan(&[], &[0, 0], 5, file_len, BLOCK, 0, u64::MAX, &mut []);
        assert_eq!(empty, Ok(0));
    }
}

/// The room that the call's words give is enough, and no more of it is written than the plan.
#[test]
fn room_for_every_piece() {
    let (lists, lengths) = joined(&vec![list(&apart(2_048)); 16]);
    let most = 4 * 16 * 2_048 + 2 * 16 + 16 * CHUNK / 65_536;
    let mut out = vec![0xee; most as usize * Piece::LEN];
    let written = file_plan(&lists, &lengths, 0, u64::MAX, 65_536, 0, u64::MAX, &mut out);
    assert_eq!(written, Ok(16 * 4_097 * Piece::LEN));
    assert!(out[16 * 4_097 * Piece::LEN..].iter().all(|byte| *byte == 0xee));
}
