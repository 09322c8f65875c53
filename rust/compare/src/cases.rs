//! The calls that the papers speak of, and limits from both sides. Their values are tested
//! in the second program.

mod digits;
mod files;
mod history;
mod judge;
mod next;
mod seeking;

use second::limits::{CHUNK, LIST_RECORDS, RECORD};
use second::Record;

use crate::call::{Call, Room};
use crate::joined::Joined;
use crate::lists::combed;
use crate::pair::Pair;

const MIB: u64 = 1_048_576;
const BLOCK: u64 = 4_194_304;

pub fn all() -> Vec<Call> {
    let calls = [
        lists(),
        zero_records(),
        sizes(),
        list_of_000(),
        tidied_to_the_limit(),
        fed_back(),
        seeking::all(),
        history::all(),
        files::all(),
        names(),
        keys(),
        digits::all(),
    ]
    .concat();
    let pieces = next::of(&calls);
    let judged = judge::of(&calls);
    [calls, pieces, judged].concat()
}

fn list(rows: &[(u64, u64, u64, u64, u64)]) -> Vec<u8> {
    rows.iter().flat_map(|r| Record::new(r.0, r.1, r.2, r.3, r.4).to_bytes()).collect()
}

/// Every call that takes a list, with this one.
fn with(list: Vec<u8>) -> Vec<Call> {
    let (chunk_len, block_size, out) = (CHUNK, BLOCK, Room::Right);
    let (start, count) = (0, CHUNK);
    vec![
        Call::Check { list: list.clone() },
        Call::View { list: list.clone(), chunk_len, out },
        Call::Tidy { list: list.clone(), out },
        Call::ReadPlan { list: list.clone(), index: 7, chunk_len, block_size, start, count, out },
        Call::FilePlan { file: three_with(&list), block_size, start, count: u64::MAX, out },
        Call::Added { pair: Pair::apart(&list, &[]) },
        Call::Added { pair: Pair::apart(&[], &list) },
        Call::Compact { list, index: 7, block_size, k: 1, new_id: 1_000, plan: out, new_list: out },
    ]
}

/// A file with this list between two others.
fn three_with(list: &[u8]) -> Joined {
    Joined::of(&[three(), list.to_vec(), Vec::new()], 7, u64::MAX)
}

fn lists() -> Vec<Call> {
    let empty = |chunk_len| Call::View { list: Vec::new(), chunk_len, out: Room::Right };
    let mut calls = vec![empty(0), empty(5)];
    for length in [0, 23, 24, 25, 24_576, 24_600, 49_152, 49_176, 49_177] {
        calls.extend(with(vec![0; length]));
    }
    for row in
        [(67_108_863, 0, 0, 0, 1), (67_108_863, 0, 0, 0, 2), (0, 7, 10, 4, 6), (0, 7, 10, 4, 7)]
    {
        calls.extend(with(list(&[row])));
    }
    calls.extend(with(list(&[(0, 7, 20, 0, 20), (4, 0, 0, 0, 8)])));
    calls.extend(with(list(&[(0, 3, 5 * MIB, 0, 5 * MIB)])));
    calls
}

/// Sizes and offsets of a record of zeros, alone and over a slice.
fn zero_records() -> Vec<Call> {
    let mut calls = Vec::new();
    for (size, off) in [(0, 0), (8, 0), (1, 0), (7, 0), (9, 0), (8, 1), (0, 1), (CHUNK + 1, 0)] {
        let zeros = (4, 0, size, off, 8);
        calls.extend(with(list(&[zeros])));
        calls.extend(with(list(&[(0, 7, 20, 0, 20), zeros])));
    }
    calls
}

/// One slice in one size and in two: side by side, apart, empty, behind another slice's second
/// size, before a bad record; and zeros, which are of no slice.
fn sizes() -> Vec<Call> {
    let (small, large, other) = ((0, 7, 9, 0, 9), (0, 7, 10, 0, 9), (3, 8, 10, 0, 1));
    [
        &[small, other, small][..],
        &[small, large],
        &[large, other, small],
        &[small, (0, 7, 10, 0, 0)],
        &[(0, 7, 0, 0, 0), small],
        &[small, other, (3, 8, 9, 0, 1), large],
        &[small, large, (0, 7, 10, 4, 7)],
        &[small, (0, 7 + (1 << 32), 10, 0, 9), (0, 7 << 32, 10, 0, 9)],
        &[(0, 0, 0, 0, 8), (0, 0, 8, 0, 8), (0, 0, 9, 0, 9)],
    ]
    .into_iter()
    .flat_map(|rows| with(list(rows)))
    .collect()
}

/// Views as lists; the last has one record too many.
fn fed_back() -> Vec<Call> {
    let view = |list: &[u8]| second::view_bytes(list, CHUNK).expect("a view");
    let views = [view(&[]), view(&three()), view(&comb(2_047)), view(&comb(2_048))];
    assert_eq!(views[3].len(), (LIST_RECORDS + 1) * RECORD);
    views.into_iter().flat_map(with).collect()
}

/// The list of 000.
fn three() -> Vec<u8> {
    list(&[
        (10 * MIB, 10, 30 * MIB, 0, 30 * MIB),
        (20 * MIB, 11, 16 * MIB, 0, 16 * MIB),
        (16 * MIB, 12, 10 * MIB, 0, 10 * MIB),
    ])
}

fn list_of_000() -> Vec<Call> {
    let mut calls = with(three());
    for (start, count) in [(15_728_640, 2_097_152), (10 * MIB, 8 * MIB)] {
        calls.push(Call::ReadPlan {
            list: three(),
            index: 0,
            chunk_len: CHUNK,
            block_size: BLOCK,
            start,
            count,
            out: Room::Right,
        });
    }
    calls
}

/// The last is the longest list that is allowed.
fn tidied_to_the_limit() -> Vec<Call> {
    [2_047, 2_048, 2_049, 4_095].into_iter().flat_map(|bytes| with(comb(bytes))).collect()
}

fn comb(bytes: u64) -> Vec<u8> {
    combed(7, bytes).iter().flat_map(Record::to_bytes).collect()
}

fn names() -> Vec<Call> {
    let mut calls = Vec::new();
    for name in [
        "chunks/1/1234/1234567_2_100",
        "chunks/0/0/3_0_4194304",
        "chunks/0/0/3_1_1048576",
        "chunks/0/0/1_0_16",
        "jfstest/chunks/0/0/1_0_4194304",
        "jfstest/chunks/0/0/1_1_4194304",
        "jfstest/chunks/0/0/1_2_2097152",
        "jfstest/chunks/0/0/10_7_2097152",
        "foo-dev/chunks/0/0/3_1_1048576",
    ] {
        calls.push(Call::ReadObjectName { name: name.into() });
        calls.push(Call::ReadFullName { name: name.into() });
    }
    for (id, block, length) in [(1_234_567, 2, 100), (3, 0, 4_194_304), (3, 1, 1_048_576)] {
        let (volume, out) = (b"jfstest".to_vec(), Room::Right);
        calls.push(Call::WriteObjectName { id, block, length, out });
        calls.push(Call::WriteFullName { volume, id, block, length, out });
    }
    calls
}

fn keys() -> Vec<Call> {
    let mut calls = Vec::new();
    for key in ["c100_0", "c100_1", "c100_2", "c100_0,5", "c0100_0"] {
        calls.push(Call::ReadRedisKey { key: key.into() });
    }
    for key in [&b"A\x02\0\0\0\0\0\0\0C\0\0\0\0"[..], b"A\x04\0\0\0\0\0\0\0C\0\0\0\x02"] {
        calls.push(Call::ReadTkvKey { key: key.to_vec() });
    }
    for (inode, index) in [(100, 0), (100, 2), (4, 2)] {
        calls.push(Call::WriteRedisKey { inode, index, out: Room::Right });
        calls.push(Call::WriteTkvKey { inode, index, out: Room::Right });
    }
    calls
}
