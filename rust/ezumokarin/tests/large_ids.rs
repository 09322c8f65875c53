//! Ids of more than 32 bits, in records and in pieces, and the largest index of a chunk.

mod common;

use common::{lines, list};
use ezumokarin::{compact, read_plan, records, view, Record};

const LARGE: u64 = (1 << 40) + 5;
const INDEX: u64 = u32::MAX as u64;
const BLOCK_SIZE: u64 = 65_536;

#[test]
fn views_keep_them() {
    let mut out = [0; 3 * Record::LEN];
    let count = view(&list(&[(0, LARGE, 10, 4, 6)]), 6, &mut out).expect("a view");
    let run = Record { pos: 0, id: LARGE, size: 10, off: 4, len: 6 };
    assert_eq!(records(&out[..count]).collect::<Vec<_>>(), [run]);
}

#[test]
fn plans_keep_them() {
    let mut out = [0; 34];
    let list = list(&[(0, LARGE, 10, 4, 6)]);
    assert_eq!(read_plan(&list, INDEX, 6, BLOCK_SIZE, 0, 6, &mut out), Ok(34));
    assert_eq!(lines(&out), "RB 4294967295 0 1099511627781 0 10 4 6\n");
}

#[test]
fn compaction_keeps_them() {
    let (mut plan, mut new_list) = ([0; 34], [0; Record::LEN]);
    let list = list(&[(0, LARGE, 10, 4, 6)]);
    compact(&list, INDEX, BLOCK_SIZE, 1, LARGE + 1, &mut plan, &mut new_list).expect("a plan");
    assert_eq!(lines(&plan), "RB 4294967295 0 1099511627781 0 10 4 6\n");
    let copied = Record { pos: 0, id: LARGE + 1, size: 6, off: 0, len: 6 };
    assert_eq!(Record::from_bytes(&new_list), copied);
}
