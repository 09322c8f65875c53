//! What `added` is asked: an older list, and a newer one that goes on from it, that was rewritten or
//! that is another; refused lists on either side; and how the two stand in memory.

use std::ops::Range;

use second::limits::{LIST_RECORDS, RECORD};
use second::Record;

use crate::pair::Pair;
use crate::{lists, mutate, refused};
use rng::Rng;

pub fn pair(rng: &mut Rng) -> Pair {
    let list = list(rng);
    let older = beginning(rng, &list);
    match rng.below(17) {
        0..=4 => standing(rng, older, list),
        5 => standing(rng, list.clone(), list),
        6 => standing(rng, list, older),
        7..=10 => rewritten(rng, older, list),
        11 => Pair::Apart { older: lists::sound(rng), newer: list },
        12 => half_a_record(rng, list),
        13 => overlapping(rng, list),
        14 => refused_beginning(rng, older),
        _ => refused(rng, older, list),
    }
}

/// Now and then one that is as long as a list may be, or nearly.
fn list(rng: &mut Rng) -> Vec<u8> {
    let mut list = lists::sound(rng);
    if rng.once_in(100) {
        let records = LIST_RECORDS - rng.below(3) as usize;
        list.resize(list.len().max(records * RECORD), 0);
    }
    list
}

/// Some first records, now and then none or all but one.
fn beginning(rng: &mut Rng, list: &[u8]) -> Vec<u8> {
    let records = (list.len() / RECORD) as u64;
    let kept = match rng.below(6) {
        0 => 0,
        1 => records.saturating_sub(1),
        _ => rng.below(records + 1),
    };
    list[..kept as usize * RECORD].to_vec()
}

/// The newer list is changed where the older one stands in it.
fn rewritten(rng: &mut Rng, older: Vec<u8>, mut newer: Vec<u8>) -> Pair {
    let Some(last) = older.len().checked_sub(1) else {
        return standing(rng, older, newer);
    };
    match rng.below(6) {
        // By 16 MiB: the list stays sound if the record lies before the last of them.
        0 => newer[0] ^= 1,
        1 => newer[last] = newer[last].checked_sub(1).unwrap_or(1),
        2 => mutate::byte(rng, &mut newer[..=last]),
        3 => mutate::exchanged(rng, &mut newer[..=last]),
        4 => newer[..=last].chunks_mut(RECORD).for_each(other_size),
        _ => newer = compacted(rng, newer),
    }
    Pair::Apart { older, newer }
}

/// Zeros keep their meaning in the other of their two sizes.
fn other_size(record: &mut [u8]) {
    let mut zeros = Record::from_bytes(record);
    if zeros.id == 0 {
        zeros.size = if zeros.size == 0 { zeros.len } else { 0 };
        record.copy_from_slice(&zeros.to_bytes());
    }
}

/// The new list of a compaction; the list itself where there is none.
fn compacted(rng: &mut Rng, list: Vec<u8>) -> Vec<u8> {
    let (k, new_id) = (rng.below((list.len() / RECORD) as u64 + 1), 1_000_000 + rng.below(1_000));
    second::compact_bytes(&list, 0, 65_536, k, new_id).map_or(list, |answers| answers.1)
}

/// The older list ends inside a record of the newer.
fn half_a_record(rng: &mut Rng, newer: Vec<u8>) -> Pair {
    let end = rng.below(newer.len() as u64 + 1) as usize;
    standing(rng, newer[..end].to_vec(), newer)
}

/// One list is refused or both are, each with a number of its own.
fn refused(rng: &mut Rng, mut older: Vec<u8>, mut newer: Vec<u8>) -> Pair {
    let which = rng.below(4);
    if which != 0 {
        let number = rng.pick(&refused::NUMBERS);
        refused::list(rng, &mut older, number);
    }
    if which != 1 {
        let number = rng.pick(&refused::NUMBERS);
        refused::list(rng, &mut newer, number);
    }
    standing(rng, older, newer)
}

/// The newer list goes on from a refused one, and has another fault behind it.
fn refused_beginning(rng: &mut Rng, mut older: Vec<u8>) -> Pair {
    let mut rest = lists::sound(rng);
    for list in [&mut older, &mut rest] {
        let number = rng.pick(&refused::NUMBERS);
        refused::list(rng, list, number);
    }
    let newer = [&older[..], &rest].concat();
    standing(rng, older, newer)
}

/// Any two parts of one memory, mostly in whole records.
fn overlapping(rng: &mut Rng, memory: Vec<u8>) -> Pair {
    // Repeated, so that a part can go on from one that starts later.
    let memory = memory.repeat(2);
    let (older, newer) = (some_part(rng, memory.len()), some_part(rng, memory.len()));
    Pair::Within { memory, older, newer }
}

fn some_part(rng: &mut Rng, bytes: usize) -> Range<usize> {
    let unit = if rng.once_in(8) { 1 } else { RECORD };
    let count = (bytes / unit) as u64 + 1;
    let (a, b) = (rng.below(count) as usize * unit, rng.below(count) as usize * unit);
    a.min(b)..a.max(b)
}

/// Now and then in one memory, where one list is a beginning of the other.
fn standing(rng: &mut Rng, older: Vec<u8>, newer: Vec<u8>) -> Pair {
    let longer = if older.len() > newer.len() { &older } else { &newer };
    if rng.once_in(3) && longer.starts_with(&older) && longer.starts_with(&newer) {
        return Pair::within(longer, 0..older.len(), 0..newer.len());
    }
    Pair::Apart { older, newer }
}
