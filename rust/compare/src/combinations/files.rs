//! Reads across chunks: every set of faults, with the bad list first, in the middle and last; and
//! two bad lists.

use second::limits::{CHUNK, FILE_LISTS, INDEX_MAX};

use super::faulty::faulty_list;
use super::{block_size, expect, judge, room, sets, Faults, BLOCK_SIZE};
use crate::call::{Call, Room};
use crate::joined::Joined;
use crate::places;
use crate::refused::NUMBERS;
use crate::tally::Tally;

const LISTS: usize = 3;

pub fn file_plan(tally: &mut Tally, variant: usize) {
    for faults in sets(&[21, 8, 1, 2, 3, 4, 5, 6, 16, 12]) {
        let (files, bad) = one_bad_list(faults, variant);
        for file in files {
            let block_size = block_size(faults, variant);
            let (start, count) = read(variant);
            let out = room(faults.has(12));
            let call = Call::FilePlan { file, block_size, start, count, out };
            expect(tally, &call, faults.first(bad));
        }
    }
}

/// A file for each place of its bad list, and the refusal of that list's first bad record.
pub fn one_bad_list(faults: Faults, variant: usize) -> ([Joined; LISTS], u64) {
    let (bad_list, bad) = faulty_list(faults, variant);
    let files = std::array::from_fn(|place| {
        let mut lists = sound();
        lists[place] = bad_list.clone();
        file(lists, faults, variant)
    });
    (files, bad)
}

/// The first of two bad lists decides, whatever their numbers.
pub fn two_bad_lists(tally: &mut Tally, variant: usize) {
    for (first, second) in [(0, 1), (0, 2), (1, 2)] {
        for (number, other) in NUMBERS.iter().flat_map(|a| NUMBERS.map(|b| (*a, b))) {
            let mut lists = sound();
            lists[first] = faulty_list(Faults::only(number), variant).0;
            lists[second] = faulty_list(Faults::only(other), variant).0;
            let file = Joined::of(&lists, 5, u64::MAX);
            let (start, count) = read(variant);
            let (block_size, out) = (BLOCK_SIZE, Room::OneShort);
            let planned = Call::FilePlan { file, block_size, start, count, out };
            let next = places::asked(&planned, [0, 20, u64::MAX][variant]);
            let judged = judge::of(&planned, number as usize);
            for call in [Some(planned), next, judged].into_iter().flatten() {
                expect(tally, &call, number);
            }
        }
    }
}

fn sound() -> Vec<Vec<u8>> {
    vec![faulty_list(Faults(0), 0).0; LISTS]
}

/// Over everything, in the first chunk alone and in the last.
pub fn read(variant: usize) -> (u64, u64) {
    [(0, u64::MAX), (40, 30), (2 * CHUNK + 1, CHUNK)][variant]
}

/// With refusal 21 for too many lists, for lengths that wrap to the right sum, or for the last
/// list's index.
fn file(mut lists: Vec<Vec<u8>>, faults: Faults, variant: usize) -> Joined {
    let last = INDEX_MAX + 1 - LISTS as u64;
    if !faults.has(21) {
        return Joined::of(&lists, [0, 5, last][variant], u64::MAX);
    }
    if variant == 0 {
        lists.resize(FILE_LISTS + 1, Vec::new());
    }
    let mut file = Joined::of(&lists, [0, 5, last + 1][variant], u64::MAX);
    if variant == 1 {
        file.lengths[0] += 1 << 63;
        file.lengths[2] += 1 << 63;
    }
    file
}
