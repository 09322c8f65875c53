//! An older and a newer list.

use crate::record::{Record, CHUNK, RECORD};

pub struct Pair {
    pub older: Vec<u8>,
    pub newer: Vec<u8>,
}

/// How the newer list came from the older one. Both pass the checks.
#[derive(Clone, Copy, Debug, PartialEq, Eq)]
pub enum Change {
    /// One record more.
    Added,
    Equal,
    /// The older list's first byte is another, and one record more.
    First,
    /// Its last byte is.
    Last,
}

/// It fills the last three bytes of a position.
const QUARTER: u32 = CHUNK / 4;

impl Change {
    /// The older list is the given one without its last record, or nearly so: a rewritten list
    /// must pass the checks too.
    pub fn pair(self, mut list: Vec<u8>) -> Pair {
        let last = list.len() / RECORD - 2;
        match self {
            Change::Added => pair(list, |_| {}),
            Change::Equal => pair(list, |newer| newer.truncate(newer.len() - RECORD)),
            Change::First => {
                alter(&mut list, 0, short);
                pair(list, |newer| alter(newer, 0, moved))
            }
            Change::Last => {
                alter(&mut list, last, odd);
                pair(list, |newer| alter(newer, last, even))
            }
        }
    }
}

fn pair(list: Vec<u8>, rewrite: impl Fn(&mut Vec<u8>)) -> Pair {
    let older = list[..list.len() - RECORD].to_vec();
    let mut newer = list;
    rewrite(&mut newer);
    Pair { older, newer }
}

fn alter(list: &mut [u8], record: usize, change: fn(Record) -> Record) {
    let (records, _) = list.as_chunks_mut::<RECORD>();
    change(Record::from_bytes(&records[record])).write(&mut records[record]);
}

/// Short enough to be moved.
fn short(r: Record) -> Record {
    Record { len: r.len.min(QUARTER), ..r }
}

/// Its first byte alone is another.
fn moved(r: Record) -> Record {
    let pos = if r.pos < CHUNK / 2 { r.pos + QUARTER } else { r.pos - QUARTER };
    Record { pos, ..r }
}

fn odd(r: Record) -> Record {
    Record { len: (r.len - 1) | 1, ..r }
}

/// One byte shorter than an odd one: its last byte alone is another.
fn even(r: Record) -> Record {
    Record { len: r.len - 1, ..r }
}
