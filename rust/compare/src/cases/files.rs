//! Reads across chunks by the paper's words: edges, ends, the numbers of 21, and refused lists.

use second::limits::{CHUNK, INDEX_MAX, RECORD};

use super::{list, three, BLOCK, MIB};
use crate::call::{Call, Room};
use crate::joined::Joined;

type Row = (u64, u64, u64, u64, u64);

const A: Row = (0, 7, 20, 0, 20);

pub fn all() -> Vec<Call> {
    [edges(), ends(), one_list(), numbers(), lengths(), indexes(), refused(), rooms()].concat()
}

fn read(file: Joined, start: u64, count: u64) -> Call {
    Call::FilePlan { file, block_size: BLOCK, start, count, out: Room::Right }
}

/// What meets at an edge: nothing, zeros, one object that goes on or not, document 000's lists.
fn edges() -> Vec<Call> {
    let zeros = (CHUNK - 4, 0, 0, 0, 4);
    let slice = (CHUNK - 8, 7, 100, 30, 8);
    let pairs: [[&[Row]; 2]; 7] = [
        [&[], &[]],
        [&[zeros], &[]],
        [&[zeros], &[(0, 0, 9, 0, 9)]],
        [&[slice], &[(0, 7, 100, 38, 8)]],
        [&[slice], &[(0, 7, 100, 39, 8)]],
        [&[slice], &[(0, 7, 101, 38, 8)]],
        [&[slice], &[(0, 8, 100, 38, 8)]],
    ];
    let mut files: Vec<Vec<Vec<u8>>> = pairs.map(|pair| pair.map(list).to_vec()).to_vec();
    files.push(vec![three(); 3]);
    let reads = [(CHUNK - 3, 7), (CHUNK - 8, 8), (CHUNK, 8), (0, u64::MAX), (54 * MIB, 20 * MIB)];
    let pairs = files.iter().flat_map(|lists| reads.map(|read| (lists, read)));
    pairs
        .map(|(lists, (start, count))| read(Joined::of(lists, 5, u64::MAX), start, count))
        .collect()
}

/// The file's end in each chunk, at each edge and before the first chunk; starts and counts about
/// it and far off.
fn ends() -> Vec<Call> {
    let lists = [list(&[A]), Vec::new(), list(&[A])];
    let lengths = [0, 1, CHUNK - 1, CHUNK, CHUNK + 1, 2 * CHUNK + 4, 3 * CHUNK, 3 * CHUNK + 1];
    let ends = lengths.map(|length| 5 * CHUNK + length).into_iter();
    let mut calls = Vec::new();
    for file_len in ends.chain([0, CHUNK, 5 * CHUNK - 1, u64::MAX]) {
        let file = || Joined::of(&lists, 5, file_len);
        let end = file_len.saturating_sub(5 * CHUNK).min(3 * CHUNK);
        for start in [0, end.saturating_sub(1), end, end + 1, 1 << 32, u64::MAX] {
            for count in [0, 1, CHUNK, u64::MAX - start, u64::MAX] {
                calls.push(read(file(), start, count));
            }
        }
    }
    calls
}

/// A file of one list, beside the plan of its chunk.
fn one_list() -> Vec<Call> {
    let mut calls = Vec::new();
    for index in [0, 7, INDEX_MAX] {
        for chunk_len in [0, 12 * MIB, CHUNK] {
            let (start, count, block_size, out) = (11 * MIB, 8 * MIB, BLOCK, Room::Right);
            let file = Joined::of(&[three()], index, index * CHUNK + chunk_len);
            calls.push(read(file, start, count));
            let list = three();
            let single = Call::ReadPlan { list, index, chunk_len, block_size, start, count, out };
            calls.push(single);
        }
    }
    calls
}

fn numbers() -> Vec<Call> {
    let files = [0, 1, 2, 15, 16, 17, 18, 100].map(|lists| vec![list(&[A]); lists]);
    files.map(|lists| read(Joined::of(&lists, 0, u64::MAX), 0, u64::MAX)).to_vec()
}

/// Lengths that add up, that do so only if sums wrap, and that don't.
fn lengths() -> Vec<Call> {
    let half = 1 << 63;
    let rows: [&[u64]; 13] = [
        &[24, 24],
        &[0, 48],
        &[48, 0],
        &[12, 36],
        &[24, 23, 1],
        &[24, 23],
        &[24, 25],
        &[24],
        &[24, 24, 24],
        &[half, half],
        &[half, half + 48],
        &[u64::MAX, 49],
        &[1 << 32, 48],
    ];
    let file = |lengths: &[u64]| Joined {
        lengths: lengths.to_vec(),
        ..Joined::of(&[list(&[A, A])], 5, u64::MAX)
    };
    rows.map(|lengths| read(file(lengths), 0, u64::MAX)).to_vec()
}

/// The last list's index at 2^32 - 1 and past it, also where nothing is read.
fn indexes() -> Vec<Call> {
    let mut calls: Vec<Call> =
        [INDEX_MAX, INDEX_MAX + 1, 1 << 40, u64::MAX].into_iter().flat_map(of_nothing).collect();
    for lists in [1, 2, 16] {
        let last = INDEX_MAX + 1 - lists as u64;
        for first_index in [last, last + 1, INDEX_MAX, INDEX_MAX + 1, u64::MAX - 1, u64::MAX] {
            for file_len in [0, u64::MAX] {
                let file = Joined::of(&vec![list(&[A]); lists], first_index, file_len);
                calls.push(read(file, 0, u64::MAX));
            }
        }
    }
    calls
}

/// A read and a compaction of one chunk, of no bytes.
fn of_nothing(index: u64) -> [Call; 2] {
    let (block_size, out) = (BLOCK, Room::Right);
    let (list, chunk_len, start, count) = (three(), CHUNK, 0, 0);
    let (k, new_id, plan, new_list) = (0, 99, out, out);
    [
        Call::ReadPlan { list: list.clone(), index, chunk_len, block_size, start, count, out },
        Call::Compact { list, index, block_size, k, new_id, plan, new_list },
    ]
}

/// One refused list for each number at each place, read or not.
fn refused() -> Vec<Call> {
    let bad = [
        vec![0; 23],
        vec![0; 2_049 * RECORD],
        list(&[A, (CHUNK, 7, 20, 0, 1)]),
        list(&[A, (0, 9, CHUNK + 1, 0, 1)]),
        list(&[(4, 0, 1, 0, 8)]),
        list(&[A, A, A, (0, 7, 20, 4, 17)]),
        list(&[A, (0, 7, 21, 0, 20)]),
    ];
    let mut calls = Vec::new();
    for (list_of, place) in bad.iter().flat_map(|bad| [0, 1, 2].map(|place| (bad, place))) {
        let mut lists = vec![list(&[A]); 3];
        lists[place] = list_of.clone();
        for (start, count) in [(0, u64::MAX), (CHUNK, 1), (0, 0), (u64::MAX, 1)] {
            calls.push(read(Joined::of(&lists, 5, u64::MAX), start, count));
        }
    }
    calls
}

/// Five pieces in every kind of room.
fn rooms() -> Vec<Call> {
    let file = || Joined::of(&[list(&[A]), list(&[A]), Vec::new()], 0, u64::MAX);
    let rooms = [Room::Right, Room::OneShort, Room::Empty, Room::Longer(1), Room::Bytes(34)];
    let call =
        |out| Call::FilePlan { file: file(), block_size: BLOCK, start: 0, count: u64::MAX, out };
    rooms.map(call).to_vec()
}
