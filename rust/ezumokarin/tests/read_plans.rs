//! Reads whose plans the requirements print or decide.

mod common;

use common::{lines, list, list_of_000, Row};
use ezumokarin::{read_plan, Piece, CHUNK};

/// 4 MiB and 64 KiB, two block sizes.
const USUAL: u64 = 4_194_304;
const SMALL: u64 = 65_536;

/// The plan of chunk 9 has these pieces, in a buffer with room for 20.
fn reads(list: &[u8], chunk_len: u64, block_size: u64, (start, count): (u64, u64), plan: &str) {
    let mut out = [0; 20 * Piece::LEN];
    let written =
        read_plan(list, 9, chunk_len, block_size, start, count, &mut out).expect("a plan");
    assert_eq!(lines(&out[..written]), plan);
}

#[test]
fn two_mib_from_15_mib() {
    let plan = "RB 9 0 10 1 4194304 1048576 1048576
RB 9 1048576 12 0 4194304 0 1048576
";
    reads(&list_of_000(), CHUNK, USUAL, (15_728_640, 2_097_152), plan);
}

#[test]
fn eight_mib_from_10_mib() {
    let plan = "RB 9 0 10 0 4194304 0 4194304
RB 9 4194304 10 1 4194304 0 2097152
RB 9 6291456 12 0 4194304 0 2097152
";
    reads(&list_of_000(), CHUNK, USUAL, (10_485_760, 8_388_608), plan);
}

#[test]
fn whole_chunk() {
    let plan = "RZ 9 0 0 0 0 0 10485760
RB 9 10485760 10 0 4194304 0 4194304
RB 9 14680064 10 1 4194304 0 2097152
RB 9 16777216 12 0 4194304 0 4194304
RB 9 20971520 12 1 4194304 0 4194304
RB 9 25165824 12 2 2097152 0 2097152
RB 9 27262976 11 1 4194304 2097152 2097152
RB 9 29360128 11 2 4194304 0 4194304
RB 9 33554432 11 3 4194304 0 4194304
RB 9 37748736 10 6 4194304 2097152 2097152
RB 9 39845888 10 7 2097152 0 2097152
RZ 9 41943040 0 0 0 0 25165824
";
    reads(&list_of_000(), CHUNK, USUAL, (0, CHUNK), plan);
}

/// What a view parts and a plan joins.
#[test]
fn joined() {
    let zeros_beside_holes = list(&[(100, 0, 0, 0, 50)]);
    reads(&zeros_beside_holes, 300, SMALL, (0, 300), "RZ 9 0 0 0 0 0 300\n");
}

/// A short last block is another object.
#[test]
fn parted_by_a_short_last_block() {
    let rows: [Row; 2] = [(0, 7, 100_000, 65_536, 1_000), (1_000, 8, 131_072, 66_536, 500)];
    let plan = "RB 9 0 7 1 34464 0 1000
RB 9 1000 8 1 65536 1000 500
";
    reads(&list(&rows), 1_500, SMALL, (0, 1_500), plan);
}

#[test]
fn parted_at_the_end_of_a_block() {
    let plan = "RB 9 0 3 0 65536 65535 1
RB 9 1 3 1 34464 0 1
";
    reads(&list(&[(0, 3, 100_000, 0, 100_000)]), 100_000, SMALL, (65_535, 2), plan);
}

/// Reads at, past and over the end of the chunk. The sum of start and count may pass 64 bits.
#[test]
fn ends() {
    let list = list(&[(100, 0, 0, 0, 50)]);
    for (what, chunk_len, read, plan) in [
        ("start at the chunk length", 300, (300, 1), ""),
        ("start past the chunk length", 300, (u64::MAX, u64::MAX), ""),
        ("count 0", 300, (100, 0), ""),
        ("start and count beyond 64 bits", 300, (299, u64::MAX), "RZ 9 0 0 0 0 0 1\n"),
        ("chunk length 0", 0, (0, 1), ""),
    ] {
        println!("{what}");
        reads(&list, chunk_len, SMALL, read, plan);
    }
}
