//! Read plans of paper 01 and document 000, and compaction by the paper's words.

mod common;
use common::*;
use second::limits::PIECE;
use second::Location::{Object, Zeros};
use second::{compact, plan_bytes, read_plan, Compacted, Location, Piece};

/// The chunk index given, which every piece carries.
const INDEX: u64 = 0x0102_0304;

fn plan(list: &[u8], start: u64, count: u64) -> Vec<(u64, Location, u64)> {
    let mut out = vec![0; 60_000];
    let count = read_plan(list, INDEX, CHUNK, BLOCK, start, count, &mut out).expect("a plan");
    pieces(&out[..count])
}

fn pieces(plan: &[u8]) -> Vec<(u64, Location, u64)> {
    let row = |piece: Piece| {
        assert_eq!(piece.index, INDEX);
        (piece.place, piece.from, piece.len)
    };
    plan.chunks(PIECE).map(Piece::from_bytes).map(row).collect()
}

/// A part of an object of document 000, in MiB: id, block, block length, place.
fn object(id: u64, block: u64, length: u64, at: u64) -> Location {
    Object { id, block, length: length * MIB, at: at * MIB }
}

#[test]
fn two_pieces_of_the_paper() {
    let pieces = [
        (0, Object { id: 10, block: 1, length: 4_194_304, at: 1_048_576 }, 1_048_576),
        (1_048_576, Object { id: 12, block: 0, length: 4_194_304, at: 0 }, 1_048_576),
    ];
    assert_eq!(plan(&list_of_000(), 15_728_640, 2_097_152), pieces);
}

#[test]
fn bytes_of_the_first_piece() {
    let mut out = [0; 68];
    let count = read_plan(&list_of_000(), INDEX, CHUNK, BLOCK, 15_728_640, 2_097_152, &mut out);
    assert_eq!(count, Ok(68));
    let index = [1, 2, 3, 4];
    let place = [0, 0, 0, 0];
    let id = [0, 0, 0, 0, 0, 0, 0, 10];
    let block = [0, 0, 0, 1];
    let length = [0, 0x40, 0, 0];
    let at = [0, 0x10, 0, 0];
    let len = [0, 0x10, 0, 0];
    let piece = [&b"RB"[..], &index, &place, &id, &block, &length, &at, &len].concat();
    assert_eq!(out[..34], piece);
}

#[test]
fn bytes_of_zeros() {
    let mut out = [0xee; 34];
    assert_eq!(read_plan(&[], INDEX, CHUNK, BLOCK, 9, 256, &mut out), Ok(34));
    let piece = [&b"RZ"[..], &[1, 2, 3, 4], &[0; 4], &[0; 8], &[0; 12], &[0, 0, 1, 0]].concat();
    assert_eq!(out[..], piece);
}

/// The objects that 000 lists for its chunk.
#[test]
fn objects_of_the_chunk_in_000() {
    let pieces = [
        (0, Zeros, 10),
        (10, object(10, 0, 4, 0), 4),
        (14, object(10, 1, 4, 0), 2),
        (16, object(12, 0, 4, 0), 4),
        (20, object(12, 1, 4, 0), 4),
        (24, object(12, 2, 2, 0), 2),
        (26, object(11, 1, 4, 2), 2),
        (28, object(11, 2, 4, 0), 4),
        (32, object(11, 3, 4, 0), 4),
        (36, object(10, 6, 4, 2), 2),
        (38, object(10, 7, 2, 0), 2),
        (40, Zeros, 24),
    ];
    assert_eq!(plan(&list_of_000(), 0, CHUNK), pieces.map(|p| (p.0 * MIB, p.1, p.2 * MIB)));
}

/// 000: a read of 8 MiB at 10 MiB meets three objects.
#[test]
fn read_of_8_mib_in_000() {
    let pieces =
        [(0, object(10, 0, 4, 0), 4), (4, object(10, 1, 4, 0), 2), (6, object(12, 0, 4, 0), 2)];
    let read = plan(&list_of_000(), 10 * MIB, 8 * MIB);
    assert_eq!(read, pieces.map(|p| (p.0 * MIB, p.1, p.2 * MIB)));
}

/// 003: a slice of 5 MiB has a block of 4 MiB and one of 1 MiB.
#[test]
fn blocks_of_a_slice_of_5_mib() {
    let list = list(&[(0, 3, 5 * MIB, 0, 5 * MIB)]);
    let pieces = [(0, object(3, 0, 4, 0), 4 * MIB), (4 * MIB, object(3, 1, 1, 0), MIB)];
    assert_eq!(plan(&list, 0, 5 * MIB), pieces);
}

#[test]
fn reads_are_cut_to_the_chunk() {
    let end = CHUNK - 1;
    assert_eq!(plan(&[], end, u64::MAX), [(0, Zeros, 1)]);
    assert_eq!(plan(&[], CHUNK, u64::MAX), []);
    assert_eq!(plan(&[], u64::MAX, u64::MAX), []);
    assert_eq!(plan(&[], 3, 0), []);
}

#[test]
fn zeros_beside_holes_are_one_piece() {
    assert_eq!(plan(&list(&[(4, 0, 0, 0, 8)]), 0, 20), [(0, Zeros, 20)]);
}

/// Only in the definition: the calls refuse such a list.
#[test]
fn two_sizes_share_their_full_blocks() {
    let defined = |list: &[u8]| pieces(&plan_bytes(&decoded(list), INDEX, BLOCK, 0, 20));
    let both = list(&[(0, 7, BLOCK, 0, 10), (10, 7, 2 * BLOCK, 10, 10)]);
    assert_eq!(defined(&both), [(0, object(7, 0, 4, 0), 20)]);
    let apart = list(&[(0, 7, 100, 0, 10), (10, 7, 101, 10, 10)]);
    let at = |length, at| Object { id: 7, block: 0, length, at };
    assert_eq!(defined(&apart), [(0, at(100, 0), 10), (10, at(101, 10), 10)]);
    for refused in [both, apart] {
        assert_eq!(read_plan(&refused, 0, CHUNK, BLOCK, 0, 20, &mut [0; 68]), Err(no_at(16, 1)));
    }
}

#[test]
fn compaction_of_two_of_three() {
    let list = list(&[(8, 7, 10, 0, 4), (20, 0, 0, 0, 2), (9, 8, 1, 0, 1)]);
    let (mut plan, mut new_list) = ([0; 102], [0; 48]);
    let counts = compact(&list, INDEX, BLOCK, 2, 9, &mut plan, &mut new_list);
    assert_eq!(counts, Ok(Compacted { plan: 68, list: 48 }));
    assert_eq!(rows(&new_list), [(8, 9, 14, 0, 14), (9, 8, 1, 0, 1)]);
    let slice = Object { id: 7, block: 0, length: 10, at: 0 };
    assert_eq!(pieces(&plan[..68]), [(0, slice, 4), (4, Zeros, 10)]);
}

#[test]
fn compaction_of_what_covers_nothing() {
    let list = list(&[(8, 7, 10, 0, 0), (20, 0, 0, 0, 2)]);
    let mut new_list = [0; 24];
    let counts = compact(&list, INDEX, BLOCK, 1, 9, &mut [], &mut new_list);
    assert_eq!(counts, Ok(Compacted { plan: 0, list: 24 }));
    assert_eq!(rows(&new_list), [(20, 0, 0, 0, 2)]);
}

#[test]
fn new_id_may_stand_in_no_record() {
    let list = list(&[(0, 7, 10, 0, 4), (0, 8, 1, 0, 0)]);
    let refused = |k, id| compact(&list, 0, BLOCK, k, id, &mut [0; 102], &mut [0; 102]).err();
    assert_eq!(refused(1, 0), Some(no(9)));
    assert_eq!(refused(1, 8), Some(no(9)));
    assert_eq!(refused(3, 8), Some(no(10)));
    assert_eq!(refused(2, 9), None);
}
