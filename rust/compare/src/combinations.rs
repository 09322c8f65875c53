//! All combinations of refusals: each call with every set of faults that it can meet.
//! The refusal expected is the first of the set in the written order.

mod faulty;
mod files;
mod forms;
mod history;
mod judge;
mod next;
mod seeking;

use second::limits::{CHUNK, INDEX_MAX, RECORD};

use crate::call::{Call, Room};
use crate::tally::Tally;
use faulty::{faulty_list, FIRST_ID};

/// The written order; 3 to 6 stand for the first bad record.
const ORDER: [u64; 15] = [7, 21, 8, 1, 2, 3, 4, 5, 6, 16, 10, 9, 13, 11, 12];
const ORIGIN: &str = "combinations of refusals";
/// They have one refusal, 13, and so no combinations.
const READERS: [&str; 4] = ["read_object_name", "read_full_name", "read_redis_key", "read_tkv_key"];
const BLOCK_SIZE: u64 = 65_536;
const NEW_ID: u64 = 99;

/// Which refusals an input is made to meet.
#[derive(Clone, Copy)]
pub struct Faults(u64);

impl Faults {
    pub fn has(self, number: u64) -> bool {
        self.0 >> number & 1 == 1
    }

    /// This one and no other.
    pub fn only(number: u64) -> Faults {
        Faults(1 << number)
    }

    /// More than one.
    pub fn several(self) -> bool {
        self.0.count_ones() > 1
    }

    /// The first in the written order, where `bad` is the first bad record's refusal.
    fn first(self, bad: u64) -> u64 {
        let first = ORDER.into_iter().find(|number| self.has(*number)).unwrap_or(0);
        if (3..=6).contains(&first) {
            bad
        } else {
            first
        }
    }
}

/// Every set of these refusals.
pub fn sets(numbers: &[u64]) -> impl Iterator<Item = Faults> + '_ {
    (0..1u64 << numbers.len()).map(|bits| {
        let chosen = numbers.iter().enumerate().filter(|(i, _)| bits >> i & 1 == 1);
        Faults(chosen.map(|(_, number)| 1 << number).sum())
    })
}

pub fn run(tally: &mut Tally) {
    for variant in 0..faulty::VARIANTS {
        check(tally, variant);
        view(tally, variant);
        tidy(tally, variant);
        read_plan(tally, variant);
        files::file_plan(tally, variant);
        files::two_bad_lists(tally, variant);
        next::next_piece(tally, variant);
        next::next_file_piece(tally, variant);
        judge::judge_plan(tally, variant);
        compact(tally, variant);
        history::added(tally, variant);
    }
    forms::run(tally);
    seeking::run(tally);
}

/// Every call that has combinations must have met what it meets elsewhere.
pub fn reach(tally: &mut Tally) {
    for (call, number) in tally.missed(ORIGIN) {
        if !READERS.contains(&call) {
            tally.difference(ORIGIN, &format!("none is a {call} that gives {number}"));
        }
    }
}

/// Compares the call and tests that the second program keeps the order too.
pub fn expect(tally: &mut Tally, call: &Call, refusal: u64) {
    let got = tally.compare(ORIGIN, call);
    if got != refusal {
        let what = format!("the second program refuses with {got}, the order says {refusal}");
        tally.difference(&format!("{call:x?}"), &what);
    }
}

fn room(short: bool) -> Room {
    if short {
        Room::OneShort
    } else {
        Room::Longer(5)
    }
}

fn check(tally: &mut Tally, variant: usize) {
    for faults in sets(&[1, 2, 3, 4, 5, 6, 16]) {
        let (list, bad) = faulty_list(faults, variant);
        expect(tally, &Call::Check { list }, faults.first(bad));
    }
}

fn view(tally: &mut Tally, variant: usize) {
    for faults in sets(&[7, 1, 2, 3, 4, 5, 6, 16, 12]) {
        let (list, bad) = faulty_list(faults, variant);
        let chunk_len = chunk_len(faults, variant);
        let out = room(faults.has(12));
        expect(tally, &Call::View { list, chunk_len, out }, faults.first(bad));
    }
}

fn tidy(tally: &mut Tally, variant: usize) {
    for faults in sets(&[1, 2, 3, 4, 5, 6, 16, 11, 12]) {
        let (list, bad) = faulty_list(faults, variant);
        let out = room(faults.has(12));
        expect(tally, &Call::Tidy { list, out }, faults.first(bad));
    }
}

fn read_plan(tally: &mut Tally, variant: usize) {
    for faults in sets(&[7, 21, 8, 1, 2, 3, 4, 5, 6, 16, 12]) {
        let (list, bad) = faulty_list(faults, variant);
        let index = index(faults, variant);
        let chunk_len = chunk_len(faults, variant);
        let block_size = block_size(faults, variant);
        let out = room(faults.has(12));
        let (start, count) = (0, u64::MAX);
        let call = Call::ReadPlan { list, index, chunk_len, block_size, start, count, out };
        expect(tally, &call, faults.first(bad));
    }
}

fn compact(tally: &mut Tally, variant: usize) {
    for faults in sets(&[21, 8, 1, 2, 3, 4, 5, 6, 16, 10, 9, 12]) {
        let (list, bad) = faulty_list(faults, variant);
        let index = index(faults, variant);
        let records = (list.len() / RECORD) as u64;
        let k = if faults.has(10) { [records + 1, u64::MAX][variant % 2] } else { 2 };
        let new_id = if faults.has(9) { [0, FIRST_ID][variant % 2] } else { NEW_ID };
        let block_size = block_size(faults, variant);
        // Either buffer may be the short one, or both.
        let plan = room(faults.has(12) && variant != 1);
        let new_list = room(faults.has(12) && variant != 2);
        let call = Call::Compact { list, index, block_size, k, new_id, plan, new_list };
        expect(tally, &call, faults.first(bad));
    }
}

fn chunk_len(faults: Faults, variant: usize) -> u64 {
    if faults.has(7) {
        return [CHUNK + 1, u64::MAX, 1 << 32][variant % 3];
    }
    [CHUNK, 100, 1][variant % 3]
}

fn index(faults: Faults, variant: usize) -> u64 {
    if faults.has(21) {
        return [INDEX_MAX + 1, u64::MAX, (1 << 32) + 7][variant % 3];
    }
    [INDEX_MAX, 0, 7][variant % 3]
}

fn block_size(faults: Faults, variant: usize) -> u64 {
    if faults.has(8) {
        return [0, BLOCK_SIZE / 2, (1 << 32) + BLOCK_SIZE][variant % 3];
    }
    BLOCK_SIZE
}
