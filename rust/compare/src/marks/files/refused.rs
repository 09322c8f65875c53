//! Kinds of refused reads: which list is at fault, and each way to refusal 21.

use second::check;
use second::limits::{CHUNK, FILE_LISTS, INDEX_MAX};

use super::{Asked, Mark, NUMBERS};

const LISTS: &[u64] = &[21];

pub const MARKS: [Mark; 12] = [
    Mark { name: "file, first list refused", is: |a| a.refused_at(Some(0)), met: &NUMBERS },
    Mark { name: "file, middle list refused", is: |a| a.refused_at(None), met: &NUMBERS },
    Mark { name: "file, last list refused", is: last_refused, met: &NUMBERS },
    Mark { name: "file, refused but not read", is: not_read, met: &NUMBERS },
    Mark { name: "file, two lists refused", is: two_refused, met: &NUMBERS },
    Mark { name: "file, no lists", is: |a| a.file.lengths.is_empty(), met: LISTS },
    Mark {
        name: "file, 17 lists",
        is: |a| a.alone(Way::Number) && a.file.lengths.len() == 17,
        met: LISTS,
    },
    Mark { name: "file, lengths one off", is: one_off, met: LISTS },
    Mark { name: "file, lengths that wrap", is: lengths_wrap, met: LISTS },
    Mark {
        name: "file, index one past",
        is: |a| a.alone(Way::Index) && a.last_index() == PAST,
        met: LISTS,
    },
    Mark { name: "file, index past 2^32 alone", is: |a| a.alone(Way::Index), met: LISTS },
    Mark {
        name: "file, index that wraps",
        is: |a| a.alone(Way::Index) && a.last_index() >> 64 > 0,
        met: LISTS,
    },
];

/// The first index past 32 bits.
const PAST: u128 = INDEX_MAX as u128 + 1;

/// The three ways to refusal 21.
#[derive(Clone, Copy, PartialEq, Eq)]
enum Way {
    Number,
    Lengths,
    Index,
}

impl Asked<'_> {
    fn sum(&self) -> u128 {
        self.file.lengths.iter().map(|length| u128::from(*length)).sum()
    }

    /// Of the last list, as a number of mathematics.
    fn last_index(&self) -> u128 {
        u128::from(self.file.first_index) + (self.file.lengths.len() as u128).saturating_sub(1)
    }

    fn has(&self, way: Way) -> bool {
        match way {
            Way::Number => !(1..=FILE_LISTS).contains(&self.file.lengths.len()),
            Way::Lengths => self.sum() != self.file.lists.len() as u128,
            Way::Index => self.last_index() > u128::from(INDEX_MAX),
        }
    }

    /// Refused in this way and in no other.
    fn alone(&self, way: Way) -> bool {
        [Way::Number, Way::Lengths, Way::Index]
            .iter()
            .all(|other| self.has(*other) == (*other == way))
    }

    /// The number of the refused list, if one is told.
    fn refused(&self) -> Option<usize> {
        let refusal = self.plan.as_ref().err()?;
        let number = refusal.index.wrapping_sub(self.file.first_index) as usize;
        NUMBERS.contains(&refusal.refusal.number).then_some(number)
    }

    /// Of several lists this one is refused, or one that is neither the first nor the last.
    fn refused_at(&self, place: Option<usize>) -> bool {
        let lists = self.file.lengths.len();
        let middle = |number| number > 0 && number + 1 < lists;
        let here = |number| place.map_or(middle(number), |place| number == place);
        lists > 1 && self.refused().is_some_and(here)
    }
}

fn last_refused(a: &Asked) -> bool {
    a.refused_at(a.file.lengths.len().checked_sub(1))
}

/// Some bytes are asked for, and all of them lie in other chunks than the refused list's.
fn not_read(a: &Asked) -> bool {
    let asked = a.count > 0 && a.start < a.file.file_end().min(a.file.of_lists());
    let end = u128::from(a.start) + u128::from(a.count);
    let apart = |number: usize| {
        let chunk = number as u64 * CHUNK;
        end <= u128::from(chunk) || a.start >= chunk + CHUNK
    };
    asked && a.refused().is_some_and(apart)
}

/// A later list would be refused with another number.
fn two_refused(a: &Asked) -> bool {
    let number = |list: &[u8]| check(list).map_or_else(|refusal| refusal.number, |_| 0);
    let Some(first) = a.refused() else {
        return false;
    };
    let lists = a.file.each();
    let told = number(lists[first]);
    lists[first + 1..].iter().any(|list| ![0, told].contains(&number(list)))
}

fn one_off(a: &Asked) -> bool {
    a.alone(Way::Lengths) && a.sum().abs_diff(a.file.lists.len() as u128) == 1
}

/// In 64 bits the sum would be right.
fn lengths_wrap(a: &Asked) -> bool {
    a.alone(Way::Lengths) && a.sum() as u64 == a.file.lists.len() as u64
}
