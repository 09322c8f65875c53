//! What is read of files: lists of 1 to 16 chunks, often with something that goes on over an edge,
//! now and then refused ones or another number; and reads about edges and ends.

use second::limits::{CHUNK, FILE_LISTS, INDEX_MAX};
use second::Record;

use crate::call::{Call, Room};
use crate::joined::Joined;
use crate::{lists, mutate, numbers, refused};
use rng::Rng;

/// Slices that no other list names; each has this size.
const SLICE: u64 = 5_000_000;
const SIZE: u64 = 100_000;
/// The smallest block size.
const BLOCK: u64 = 65_536;

pub fn call(rng: &mut Rng, out: Room) -> Call {
    let number = number(rng);
    let mut lists: Vec<Vec<u8>> = (0..number).map(|_| list(rng, number)).collect();
    over_edges(rng, &mut lists);
    if rng.once_in(4) {
        spoil(rng, &mut lists);
    }
    let chunks = lists.len() as u64;
    let first_index = first_index(rng, chunks);
    let mut file = Joined::of(&lists, first_index, file_len(rng, first_index, chunks));
    if rng.once_in(10) {
        mutate::lengths::list(rng, &mut file.lengths);
    }
    let (start, count) = read(rng, &lists);
    Call::FilePlan { file, block_size: numbers::block_size(rng), start, count, out }
}

/// Now and then everything.
fn read(rng: &mut Rng, lists: &[Vec<u8>]) -> (u64, u64) {
    if rng.once_in(16) {
        return (rng.below(3), u64::MAX);
    }
    let start = start(rng, lists);
    (start, count(rng, start, lists.len() as u64))
}

fn number(rng: &mut Rng) -> u64 {
    match rng.below(40) {
        0 => 0,
        1 => FILE_LISTS as u64 + 1 + rng.below(2),
        2 | 3 => FILE_LISTS as u64,
        4 | 5 => 1 + rng.below(FILE_LISTS as u64),
        6..=9 => 1,
        _ => 2 + rng.below(4),
    }
}

/// Often an empty one, and mostly so among many: one that is refused hides what the others do.
fn list(rng: &mut Rng, number: u64) -> Vec<u8> {
    if rng.below(6 + number) > 5 {
        return Vec::new();
    }
    lists::sound(rng)
}

/// Lays something over the end of a chunk and over the beginning of the next.
fn over_edges(rng: &mut Rng, lists: &mut [Vec<u8>]) {
    for edge in 1..lists.len() {
        let (before, behind) = (1 + rng.below(40), 1 + rng.below(40));
        let (end, start) = match rng.below(6) {
            0 => (zeros(CHUNK - before, before), zeros(0, behind)),
            1 => (slice(rng, CHUNK - before, before), zeros(0, behind)),
            2 | 3 => going_on(rng, before, behind),
            _ => continue,
        };
        lists[edge - 1].extend(end.to_bytes());
        lists[edge].extend(start.to_bytes());
    }
}

fn zeros(pos: u64, len: u64) -> Record {
    Record::new(pos, 0, 0, 0, len)
}

fn slice(rng: &mut Rng, pos: u64, len: u64) -> Record {
    Record::new(pos, SLICE + rng.below(2), SIZE, rng.below(1_000), len)
}

/// One slice on both sides: at the next offset, in the next block, or one byte further.
fn going_on(rng: &mut Rng, before: u64, behind: u64) -> (Record, Record) {
    let mut end = slice(rng, CHUNK - before, before);
    if rng.once_in(4) {
        end.off = BLOCK - before;
    }
    let off = end.off + before + u64::from(rng.once_in(4));
    (end, Record { pos: 0, off, len: behind, ..end })
}

/// One list or two are refused, each with a number of its own.
fn spoil(rng: &mut Rng, lists: &mut [Vec<u8>]) {
    for _ in 0..1 + rng.below(2) {
        if lists.is_empty() {
            return;
        }
        let which = rng.below(lists.len() as u64) as usize;
        let number = rng.pick(&refused::NUMBERS);
        if second::check(&lists[which]).is_ok() {
            refused::list(rng, &mut lists[which], number);
        }
    }
}

/// Mostly one that is allowed, often so that the last list's is the last of all.
fn first_index(rng: &mut Rng, lists: u64) -> u64 {
    let last = INDEX_MAX + 1 - lists;
    match rng.below(24) {
        0 => last + 1 + rng.below(2),
        1 => numbers::index(rng),
        // Behind the last list it would wrap to a small number.
        2 => u64::MAX - rng.below(lists + 1),
        3..=6 => last - rng.below(3),
        7..=11 => rng.below(1 << 32) >> rng.below(32),
        _ => rng.below(5),
    }
}

/// Where the file ends: about an edge, in a chunk, before them all, or far off.
fn file_len(rng: &mut Rng, first_index: u64, lists: u64) -> u64 {
    let first = first_index.saturating_mul(CHUNK);
    match rng.below(12) {
        0 => numbers::any(rng),
        1 if rng.once_in(2) => first.saturating_sub(rng.below(3)),
        1 => rng.below(first.max(1)),
        2..=4 => first.saturating_add(near_edge(rng, lists)),
        5 | 6 => first.saturating_add(rng.below(lists * CHUNK + 1)),
        7 => first.saturating_add(lists.saturating_sub(1) * CHUNK + rng.below(2_000)),
        _ => u64::MAX,
    }
}

/// A place at or about the edge of a chunk.
fn near_edge(rng: &mut Rng, lists: u64) -> u64 {
    let edge = rng.below(lists + 1) * CHUNK;
    match rng.below(4) {
        0 => edge,
        1 => (edge + rng.below(5)).saturating_sub(2),
        _ => (edge + rng.below(100)).saturating_sub(50),
    }
}

/// About an edge, about a record of a list, or anywhere.
fn start(rng: &mut Rng, lists: &[Vec<u8>]) -> u64 {
    let chunks = lists.len() as u64;
    match rng.below(12) {
        0 => numbers::any(rng),
        1 => u64::MAX - rng.below(2),
        2 => rng.below(chunks * CHUNK + 1),
        3..=5 if chunks > 0 => {
            let which = rng.below(chunks);
            (which * CHUNK).saturating_add(numbers::position(rng, &lists[which as usize]))
        }
        6 | 7 => 0,
        _ => near_edge(rng, chunks),
    }
}

/// Few bytes mostly, or up to some chunks further, or far too many.
fn count(rng: &mut Rng, start: u64, lists: u64) -> u64 {
    match rng.below(12) {
        0 => numbers::any(rng),
        1 => u64::MAX - rng.below(2),
        // With the start it would wrap.
        2 => u64::MAX - start.saturating_sub(rng.below(3)),
        3 => rng.below(200_000),
        4..=6 => near_edge(rng, lists).saturating_sub(start),
        7 => rng.below(4) * CHUNK + rng.below(100),
        _ => rng.below(120),
    }
}
