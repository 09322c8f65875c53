//! The third demand on random lists: covers, tidied lists, and compaction with
//! a store, copying and appended records.

mod common;
use common::random::*;
use common::*;
use rng::Rng;
use second::limits::{PIECE, RECORD};
use second::store::Store;
use second::{compact_bytes, source_at, tidy_bytes, Record};

const NEW: u64 = 9;

/// As the definitions join lists: no call need take them together, since a slice may have one
/// size in the first and another in the second.
fn joined(first: &[u8], then: &[u8]) -> Vec<Record> {
    decoded(&[first, then].concat())
}

#[test]
fn old_and_new_list_read_the_same_after_copying() {
    let mut random = Rng::new(3);
    for round in 0..80 {
        let old = some_list(&mut random, 8, 4);
        let appended = some_list(&mut random, 3, NEW);
        let k = random.below((old.len() / RECORD) as u64 + 1);
        let before = Store::new(round);
        let (plan, new) = compact_bytes(&old, 5, BLOCK_SIZE, k, NEW).expect("a plan");
        let size = if plan.is_empty() { 0 } else { Record::from_bytes(&new).size };
        let after = before.copied(&plan, BLOCK_SIZE, NEW, size);
        let (with_old, with_new) = (joined(&old, &appended), joined(&new, &appended));
        let alone = joined(&old, &[]);
        for p in positions(&[&with_old, &with_new], &mut random) {
            let old_byte = after.read(&with_old, BLOCK_SIZE, p);
            assert_eq!(old_byte, after.read(&with_new, BLOCK_SIZE, p), "position {p}");
            let kept = after.read(&alone, BLOCK_SIZE, p);
            assert_eq!(kept, before.read(&alone, BLOCK_SIZE, p), "position {p}");
        }
    }
}

/// The model can fail: a plan that lost a piece is noticed.
#[test]
fn lost_piece_is_noticed() {
    let old = list(&[(0, 1, 10, 0, 10), (20, 2, 10, 0, 10)]);
    let (plan, new) = compact_bytes(&old, 5, BLOCK_SIZE, 2, NEW).expect("a plan");
    let after = Store::new(1).copied(&plan[..PIECE], BLOCK_SIZE, NEW, 30);
    let differs = |p: &u64| {
        after.read(&joined(&old, &[]), BLOCK_SIZE, *p)
            != after.read(&joined(&new, &[]), BLOCK_SIZE, *p)
    };
    assert!((0..30).any(|p| differs(&p)));
}

#[test]
fn cover_of_a_split_list_is_one_part_over_the_other() {
    let mut random = Rng::new(4);
    for _ in 0..300 {
        let all = decoded(&list(&some_rows(&mut random, 9, 4)));
        let (first, then) = all.split_at(random.below(all.len() as u64 + 1) as usize);
        for p in positions(&[&all], &mut random) {
            assert_eq!(source_at(&all, p), over(source_at(then, p), source_at(first, p)));
        }
    }
}

#[test]
fn tidied_run_inside_a_list_keeps_every_source() {
    let mut random = Rng::new(5);
    for _ in 0..300 {
        let old = some_list(&mut random, 9, 4);
        let count = old.len() / RECORD;
        let from = random.below(count as u64 + 1) as usize;
        let to = from + random.below((count - from) as u64 + 1) as usize;
        let middle = tidy_bytes(&old[from * RECORD..to * RECORD]).expect("a tidied list");
        let new = [&old[..from * RECORD], &middle, &old[to * RECORD..]].concat();
        let (old, new) = (joined(&old, &[]), joined(&new, &[]));
        for p in positions(&[&old], &mut random) {
            assert_eq!(source_at(&old, p), source_at(&new, p));
        }
    }
}

/// A record cut in two and a record wholly hidden leave the cover as it was.
#[test]
fn lists_of_one_cover_tidy_to_the_same_bytes() {
    let mut random = Rng::new(6);
    for _ in 0..300 {
        let old = some_list(&mut random, 9, 4);
        let mut other: Vec<u8> = Vec::new();
        for row in rows(&old) {
            let cut = random.below(row.4 + 1);
            // A part of zeros has neither the whole's size nor an offset.
            let (size, off) = if row.1 == 0 { (0, 0) } else { (row.2, row.3 + cut) };
            let (front, back) =
                ((row.0, row.1, size, row.3, cut), (row.0 + cut, row.1, size, off, row.4 - cut));
            other.extend(list(&[(row.0, 0, 0, 0, row.4), back, front]));
        }
        let tidied = tidy_bytes(&old).expect("a tidied list");
        assert_eq!(tidy_bytes(&other), Ok(tidied.clone()));
        assert_eq!(tidy_bytes(&tidied), Ok(tidied));
    }
}
