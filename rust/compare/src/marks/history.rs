//! Kinds of pairs that random calls of `added` must have met, each counted in a table of its own.

use second::limits::RECORD;
use second::{check, rewritten, Refusal};

use super::Record;
use crate::call::Call;
use crate::pair::Pair;
use crate::refused::NUMBERS;
use crate::tally::Tally;

/// A pair, and what the second program says of it.
struct Asked<'a> {
    pair: &'a Pair,
    older: &'a [u8],
    newer: &'a [u8],
    /// The refusals of each list by itself, 0 for none.
    refused: (u64, u64),
    rewritten: Result<bool, Refusal>,
}

/// A kind of pair, and the refusals (0 for an answer) that it must have been given.
struct Mark {
    name: &'static str,
    is: fn(&Asked) -> bool,
    met: &'static [u64],
}

const ANSWERED: &[u64] = &[0];

const MARKS: [Mark; 20] = [
    Mark { name: "added, equal lists", is: |a| a.adds(0) && a.some(), met: ANSWERED },
    Mark { name: "added, both lists empty", is: |a| a.adds(0) && !a.some(), met: ANSWERED },
    Mark { name: "added, one record", is: |a| a.adds(1) && a.some(), met: ANSWERED },
    Mark { name: "added, many records", is: many_records, met: ANSWERED },
    Mark { name: "added, a long list", is: long_list, met: ANSWERED },
    Mark { name: "added, empty older list", is: empty_older, met: ANSWERED },
    Mark { name: "added, empty newer list", is: empty_newer, met: ANSWERED },
    Mark { name: "added, other first byte", is: other_first_byte, met: ANSWERED },
    Mark { name: "added, other last byte", is: other_last_byte, met: ANSWERED },
    Mark { name: "added, other order", is: other_order, met: ANSWERED },
    Mark { name: "added, other size of zeros", is: other_size_of_zeros, met: ANSWERED },
    Mark { name: "added, newer is shorter", is: newer_is_shorter, met: ANSWERED },
    Mark { name: "added, same memory", is: same_memory, met: ANSWERED },
    Mark { name: "added, in newer's memory", is: in_memory_of_newer, met: ANSWERED },
    Mark { name: "added, lists overlap", is: lists_overlap, met: ANSWERED },
    Mark { name: "added, half a record", is: half_a_record, met: &[1] },
    Mark { name: "added, older refused", is: older_refused, met: &NUMBERS },
    Mark { name: "added, newer refused", is: newer_refused, met: &NUMBERS },
    Mark { name: "added, both refused", is: both_refused, met: &NUMBERS },
    Mark { name: "added, refused beginning", is: refused_beginning, met: &[3, 4, 5, 6, 16] },
];

/// Counts a call of `added` that gave this refusal under every mark that its pair has.
pub fn count(tally: &mut Tally, call: &Call, refusal: u64) {
    let Call::Added { pair } = call else {
        return;
    };
    let (older, newer) = (pair.older(), pair.newer());
    let refused = (number(older), number(newer));
    let asked = Asked { pair, older, newer, refused, rewritten: rewritten(older, newer) };
    for mark in MARKS.iter().filter(|mark| (mark.is)(&asked)) {
        tally.mark(mark.name, call.name(), refusal);
    }
}

/// What should have been met and was not.
pub fn missed(tally: &Tally) -> impl Iterator<Item = String> + '_ {
    let pairs = MARKS.iter().flat_map(|mark| mark.met.iter().map(move |met| (mark.name, *met)));
    let missed = pairs.filter(|(name, met)| tally.counted(name, "added", *met as usize) == 0);
    missed.map(|(name, met)| format!("none is {name} that gives {met}"))
}

/// The refusal of a list by itself, 0 for none.
fn number(list: &[u8]) -> u64 {
    check(list).map_or_else(|refusal| refusal.number, |_| 0)
}

impl Asked<'_> {
    fn is_rewritten(&self) -> bool {
        self.rewritten == Ok(true)
    }

    /// Not rewritten, and so many records added.
    fn adds(&self, records: usize) -> bool {
        self.rewritten == Ok(false) && self.newer.len() == self.older.len() + records * RECORD
    }

    /// The older list has records.
    fn some(&self) -> bool {
        !self.older.is_empty()
    }

    /// The newer list as far as the older one reaches, where it is as long.
    fn beginning(&self) -> Option<&[u8]> {
        self.newer.get(..self.older.len())
    }
}

fn many_records(a: &Asked) -> bool {
    a.some() && a.rewritten == Ok(false) && a.newer.len() > a.older.len() + 2 * RECORD
}

fn long_list(a: &Asked) -> bool {
    a.rewritten.is_ok() && a.newer.len() > 2_000 * RECORD
}

fn empty_older(a: &Asked) -> bool {
    !a.some() && a.rewritten == Ok(false) && !a.newer.is_empty()
}

fn empty_newer(a: &Asked) -> bool {
    a.is_rewritten() && a.newer.is_empty()
}

/// The first byte, and no other of the older list.
fn other_first_byte(a: &Asked) -> bool {
    a.is_rewritten() && a.beginning().is_some_and(|new| new[0] != a.older[0] && differing(a) == 1)
}

/// The last byte, and no other of the older list.
fn other_last_byte(a: &Asked) -> bool {
    let last = |bytes: &[u8]| bytes.last().copied();
    let other = |new| last(new) != last(a.older) && differing(a) == 1;
    a.is_rewritten() && a.beginning().is_some_and(other)
}

/// How many bytes of the older list are others in the newer.
fn differing(a: &Asked) -> usize {
    a.older.iter().zip(a.newer).filter(|(old, new)| old != new).count()
}

/// The same records in another order.
fn other_order(a: &Asked) -> bool {
    a.is_rewritten() && a.beginning().is_some_and(|new| sorted(new) == sorted(a.older))
}

fn sorted(list: &[u8]) -> Vec<&[u8]> {
    let mut records: Vec<&[u8]> = list.chunks(RECORD).collect();
    records.sort_unstable();
    records
}

/// Other bytes only in the sizes of zeros, which mean the same.
fn other_size_of_zeros(a: &Asked) -> bool {
    a.is_rewritten() && a.beginning().is_some_and(|new| sizeless(new) == sizeless(a.older))
}

fn sizeless(list: &[u8]) -> Vec<Record> {
    let without = |record: Record| match record.id {
        0 => Record { size: 0, ..record },
        _ => record,
    };
    list.chunks(RECORD).map(Record::from_bytes).map(without).collect()
}

/// Records at the end are gone, and nothing else changed.
fn newer_is_shorter(a: &Asked) -> bool {
    a.is_rewritten() && !a.newer.is_empty() && a.older.starts_with(a.newer)
}

fn same_memory(a: &Asked) -> bool {
    matches!(a.pair, Pair::Within { older, newer, .. } if older == newer) && a.adds(0) && a.some()
}

fn in_memory_of_newer(a: &Asked) -> bool {
    let begins = |pair: &Pair| match pair {
        Pair::Within { older, newer, .. } => older.start == newer.start && older.end < newer.end,
        Pair::Apart { .. } => false,
    };
    begins(a.pair) && a.some() && a.rewritten == Ok(false)
}

/// They start at two places, and each has a byte of the other.
fn lists_overlap(a: &Asked) -> bool {
    let overlap = |pair: &Pair| match pair {
        Pair::Within { older, newer, .. } => {
            older.start != newer.start && older.start.max(newer.start) < older.end.min(newer.end)
        }
        Pair::Apart { .. } => false,
    };
    overlap(a.pair) && a.rewritten.is_ok()
}

fn half_a_record(a: &Asked) -> bool {
    a.refused == (1, 0) && a.newer.starts_with(a.older)
}

fn older_refused(a: &Asked) -> bool {
    a.refused.0 != 0 && a.refused.1 == 0
}

fn newer_refused(a: &Asked) -> bool {
    a.refused.0 == 0 && a.refused.1 != 0
}

/// The newer list alone would be refused otherwise than its beginning.
fn refused_beginning(a: &Asked) -> bool {
    both_refused(a) && a.newer.starts_with(a.older)
}

/// With two numbers, of which the older list's is given.
fn both_refused(a: &Asked) -> bool {
    a.refused.0 != 0 && a.refused.1 != 0 && a.refused.0 != a.refused.1
}
