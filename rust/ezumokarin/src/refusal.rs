//! The fifteen refusals.

use std::error::Error;
use std::fmt;

/// Why a call gave no answer. Where several fit, the library gives the first in this order:
/// 7, 21, 8, 1, 2, then the first bad record and in it 3, 4, 5, 6; then 16, 10, 9, 13, 11, 12.
/// [`added`](crate::added()) goes through it once for the older list, and only then for the newer.
/// [`file_plan`](crate::file_plan()), [`next_file_piece`](crate::next_file_piece()) and
/// [`judge_plan`](crate::judge_plan()) go through 1 to 6 and 16 list by list: the first refused list
/// in chunk order decides, and its place is counted in its own list.
///
/// `place` is the place of the record in its list, counted from 0.
///
/// ```
/// let refusal = ezumokarin::check(&[0; 25]).unwrap_err();
/// assert_eq!(refusal.number(), 1);
/// assert_eq!(refusal.to_string(), "list length is no multiple of 24");
/// ```
#[derive(Clone, Copy, Debug, PartialEq, Eq, Hash)]
pub enum Refusal {
    /// 1: list length is no multiple of 24
    ListLength,
    /// 2: more than 2,048 records
    ListRecords,
    /// 3: pos + len above 64 MiB
    RecordEnd {
        /// The record.
        place: u64,
    },
    /// 4: size above 64 MiB
    SliceSize {
        /// The record.
        place: u64,
    },
    /// 5: id 0 with off not 0, or with a size that is neither 0 nor len
    ZeroRecord {
        /// The record.
        place: u64,
    },
    /// 6: id not 0 and off + len above size
    SliceEnd {
        /// The record.
        place: u64,
    },
    /// 7: chunk length above 64 MiB
    ChunkLength,
    /// 8: block size not allowed
    BlockSize,
    /// 9: new id is 0 or stands in any record of the list, empty ones included
    NewId,
    /// 10: k above the number of records
    FirstRecords,
    /// 11: tidied list above 2,048 records
    TidiedRecords,
    /// 12: an output buffer shorter than its answer (either of the two, in compaction)
    Buffer,
    /// 13: a name or key not of its form, or numbers to be written that the form doesn't allow
    Form,
    /// 16: an earlier record has this id, not 0, and another size
    TwoSizes {
        /// The record.
        place: u64,
    },
    /// 21: another number of lists than 1 to 16, lengths that don't add up to the bytes lent, or an index past 32 bits
    ChunkLists,
}

impl Refusal {
    /// The number that the library gives this refusal, 1 to 13, 16 or 21.
    pub fn number(&self) -> u64 {
        match self {
            Refusal::ListLength => 1,
            Refusal::ListRecords => 2,
            Refusal::RecordEnd { .. } => 3,
            Refusal::SliceSize { .. } => 4,
            Refusal::ZeroRecord { .. } => 5,
            Refusal::SliceEnd { .. } => 6,
            Refusal::ChunkLength => 7,
            Refusal::BlockSize => 8,
            Refusal::NewId => 9,
            Refusal::FirstRecords => 10,
            Refusal::TidiedRecords => 11,
            Refusal::Buffer => 12,
            Refusal::Form => 13,
            Refusal::TwoSizes { .. } => 16,
            Refusal::ChunkLists => 21,
        }
    }

    /// The place of the refused record; only refusals 3 to 6 and 16 have one.
    pub fn place(&self) -> Option<u64> {
        match *self {
            Refusal::RecordEnd { place }
            | Refusal::SliceSize { place }
            | Refusal::ZeroRecord { place }
            | Refusal::SliceEnd { place }
            | Refusal::TwoSizes { place } => Some(place),
            _ => None,
        }
    }

    /// Whether it is of a list alone, whatever else a call is given.
    pub(crate) fn is_of_list(&self) -> bool {
        matches!(self, Refusal::ListLength | Refusal::ListRecords) || self.place().is_some()
    }

    fn sentence(&self) -> &'static str {
        match self {
            Refusal::ListLength => "list length is no multiple of 24",
            Refusal::ListRecords => "more than 2,048 records",
            Refusal::RecordEnd { .. } => "pos + len above 64 MiB",
            Refusal::SliceSize { .. } => "size above 64 MiB",
            Refusal::ZeroRecord { .. } => "id 0 with off not 0, or with a size that is neither 0 nor len",
            Refusal::SliceEnd { .. } => "id not 0 and off + len above size",
            Refusal::ChunkLength => "chunk length above 64 MiB",
            Refusal::BlockSize => "block size not allowed",
            Refusal::NewId => {
                "new id is 0 or stands in any record of the list, empty ones included"
            }
            Refusal::FirstRecords => "k above the number of records",
            Refusal::TidiedRecords => "tidied list above 2,048 records",
            Refusal::Buffer => {
                "an output buffer shorter than its answer (either of the two, in compaction)"
            }
            Refusal::Form => {
                "a name or key not of its form, or numbers to be written that the form doesn't allow"
            }
            Refusal::TwoSizes { .. } => "an earlier record has this id, not 0, and another size",
            Refusal::ChunkLists => {
                "another number of lists than 1 to 16, lengths that don't add up to the bytes lent, or an index past 32 bits"
            }
        }
    }
}

/// `Ok` for number 0, else the refusal of that number.
pub(crate) fn passed(number: u64, place: u64) -> Result<(), Refusal> {
    Err(match number {
        0 => return Ok(()),
        1 => Refusal::ListLength,
        2 => Refusal::ListRecords,
        3 => Refusal::RecordEnd { place },
        4 => Refusal::SliceSize { place },
        5 => Refusal::ZeroRecord { place },
        6 => Refusal::SliceEnd { place },
        7 => Refusal::ChunkLength,
        8 => Refusal::BlockSize,
        9 => Refusal::NewId,
        10 => Refusal::FirstRecords,
        11 => Refusal::TidiedRecords,
        12 => Refusal::Buffer,
        13 => Refusal::Form,
        16 => Refusal::TwoSizes { place },
        21 => Refusal::ChunkLists,
        // Only a library that doesn't belong to this crate can say more.
        _ => panic!("the library refused with number {number}, unknown to this crate"),
    })
}

impl fmt::Display for Refusal {
    fn fmt(&self, f: &mut fmt::Formatter<'_>) -> fmt::Result {
        match self.place() {
            Some(place) => write!(f, "record {place}: {}", self.sentence()),
            None => f.write_str(self.sentence()),
        }
    }
}

impl Error for Refusal {}
