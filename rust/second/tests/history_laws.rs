//! Laws of added and of exchanged records, on random lists.

mod common;
use common::random::*;
use common::*;
use rng::Rng;
use second::limits::RECORD;
use second::{added, check, rewritten, source_at, tidy_bytes, Record};

/// A cut between two records, or at an end.
fn some_cut(random: &mut Rng, list: &[u8]) -> usize {
    RECORD * random.below((list.len() / RECORD) as u64 + 1) as usize
}

#[test]
fn added_cover_over_the_old_one_is_the_new_one() {
    let mut random = Rng::new(14);
    for _ in 0..300 {
        let newer = some_list(&mut random, 9, 4);
        let older = &newer[..some_cut(&mut random, &newer)];
        assert_eq!(rewritten(older, &newer), Ok(false));
        let (old, new) = (decoded(older), decoded(&newer));
        let part = decoded(added(older, &newer));
        for p in positions(&[&new], &mut random) {
            assert_eq!(source_at(&new, p), over(source_at(&part, p), source_at(&old, p)));
        }
    }
}

/// What an accepted list begins with, and every other part of it in whole records, is accepted.
#[test]
fn part_is_accepted() {
    let mut random = Rng::new(15);
    for _ in 0..300 {
        let list = some_list(&mut random, 9, 4);
        let (a, b) = (some_cut(&mut random, &list), some_cut(&mut random, &list));
        let part = &list[a.min(b)..a.max(b)];
        assert_eq!(check(part), Ok(part.len() / RECORD));
    }
}

/// Whether no position is covered by both.
fn share_no_byte(a: &Record, b: &Record) -> bool {
    a.len == 0 || b.len == 0 || a.end() <= b.pos || b.end() <= a.pos
}

/// So often takes two neighbours and exchanges them if they share no byte; how often it did.
fn exchange(records: &mut [Record], random: &mut Rng, turns: usize) -> usize {
    if records.len() < 2 {
        return 0;
    }
    let mut done = 0;
    for _ in 0..turns {
        let at = random.below(records.len() as u64 - 1) as usize;
        if share_no_byte(&records[at], &records[at + 1]) {
            records.swap(at, at + 1);
            done += 1;
        }
    }
    done
}

#[test]
fn exchanged_neighbours_keep_cover_and_tidied_bytes() {
    let mut random = Rng::new(16);
    let mut done = 0;
    for round in 0..400 {
        let old = some_list(&mut random, 12, 4);
        let (before, mut after) = (decoded(&old), decoded(&old));
        // One exchange in some rounds, an order reached by many in the others.
        done += exchange(&mut after, &mut random, [1, 60][round % 2]);
        for p in positions(&[&before], &mut random) {
            assert_eq!(source_at(&before, p), source_at(&after, p));
        }
        let new: Vec<u8> = after.iter().flat_map(Record::to_bytes).collect();
        assert_eq!(check(&new), check(&old));
        assert_eq!(tidy_bytes(&new), tidy_bytes(&old));
    }
    assert!(done > 1_000, "{done} exchanges");
}

/// An empty record goes past everything, even where it stands inside the other's range.
#[test]
fn empty_record_is_exchanged_with_all() {
    let (slice, empty) = ((0, 7, 20, 0, 20), (5, 8, 9, 9, 0));
    assert!(decoded(&list(&[slice, empty])).windows(2).all(|two| share_no_byte(&two[0], &two[1])));
    assert_eq!(tidy_bytes(&list(&[slice, empty])), tidy_bytes(&list(&[empty, slice])));
    assert_eq!(rewritten(&list(&[slice, empty]), &list(&[empty, slice])), Ok(true));
}

/// The law can fail: neighbours that share one byte may not be exchanged, those that meet may.
#[test]
fn one_shared_byte_is_noticed() {
    let (first, meets, shares) = ((0, 7, 9, 0, 9), (9, 8, 9, 0, 9), (8, 8, 9, 0, 9));
    assert_eq!(tidy_bytes(&list(&[first, meets])), tidy_bytes(&list(&[meets, first])));
    assert_ne!(tidy_bytes(&list(&[first, shares])), tidy_bytes(&list(&[shares, first])));
}
