//! Refusals of a read plan, and the room that a plan needs.

mod common;

use common::{lines, list};
use ezumokarin::{compact, read_plan, write_redis_key, Compacted, Refusal, CHUNK};

const SMALL: u64 = 65_536;
/// The first index past 32 bits.
const PAST: u64 = 1 << 32;

/// The read of nothing is refused so, and the buffer keeps its bytes.
fn refuses(list: &[u8], index: u64, chunk_len: u64, block_size: u64, refusal: Refusal) {
    let mut out = [0xee; 600];
    assert_eq!(read_plan(list, index, chunk_len, block_size, 0, 0, &mut out), Err(refusal));
    assert_eq!(out, [0xee; 600]);
}

/// Of two refusals, the one that comes first.
#[test]
fn order() {
    let past_slice = list(&[(0, 7, 10, 4, 7)]);
    refuses(&past_slice, PAST, CHUNK + 1, 5, Refusal::ChunkLength);
    refuses(&past_slice, PAST, CHUNK, 5, Refusal::ChunkLists);
    refuses(&[0; 23], PAST - 1, CHUNK, 196_608, Refusal::BlockSize);
}

/// Also of a compaction, and where the answer would be empty.
#[test]
fn index_past_32_bits() {
    let compacted = |index| compact(&[], index, SMALL, 0, 1, &mut [], &mut []);
    for index in [PAST, u64::MAX] {
        refuses(&[], index, 0, SMALL, Refusal::ChunkLists);
        assert_eq!(compacted(index), Err(Refusal::ChunkLists));
        assert_eq!(write_redis_key(1, index, &mut []), Err(Refusal::Form));
    }
    assert_eq!(read_plan(&[], PAST - 1, 0, SMALL, 0, 0, &mut []), Ok(0));
    assert_eq!(compacted(PAST - 1), Ok(Compacted { plan: 0, list: 0 }));
}

/// Powers of two that are no block size: half the smallest, twice the largest.
#[test]
fn block_sizes() {
    let zeros = list(&[(100, 0, 0, 0, 50)]);
    for block_size in [32_768, 33_554_432] {
        refuses(&zeros, 0, CHUNK, block_size, Refusal::BlockSize);
    }
}

/// A list's own refusals, also where the plan would be empty.
#[test]
fn bad_lists() {
    refuses(&list(&[(0, 7, 10, 4, 7)]), 0, CHUNK, SMALL, Refusal::SliceEnd { place: 0 });
    refuses(&[0; 23], 0, CHUNK, SMALL, Refusal::ListLength);
}

/// An answer that just fits is written, a buffer that is one byte short is refused, and nothing
/// needs no room.
#[test]
fn room() {
    let list = list(&[(0, 3, 100_000, 0, 100_000)]);
    let mut fits = [0; 68];
    assert_eq!(read_plan(&list, 2, 100_000, SMALL, 65_535, 2, &mut fits), Ok(68));
    assert_eq!(lines(&fits), "RB 2 0 3 0 65536 65535 1\nRB 2 1 3 1 34464 0 1\n");
    let mut lacks = [0xee; 67];
    assert_eq!(read_plan(&list, 2, 100_000, SMALL, 65_535, 2, &mut lacks), Err(Refusal::Buffer));
    assert_eq!(lacks, [0xee; 67]);
    assert_eq!(read_plan(&list, 2, 100_000, SMALL, 65_535, 0, &mut []), Ok(0));
}
