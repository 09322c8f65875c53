//! The cover: what each position of the chunk has as its source.

use crate::runs::Step;
use crate::Record;

#[derive(Clone, Copy, Debug, PartialEq, Eq)]
pub enum Source {
    Nothing,
    Zero,
    Byte { id: u64, size: u64, off: u64 },
}

/// The source that the last record covering the position gives it.
pub fn source_at(records: &[Record], position: u64) -> Source {
    match records.iter().rev().find(|record| record.covers(position)) {
        None => Source::Nothing,
        Some(record) if record.id == 0 => Source::Zero,
        Some(record) => Source::Byte {
            id: record.id,
            size: record.size,
            off: record.off + (position - record.pos),
        },
    }
}

impl Step for Source {
    fn after(self, bytes: u64) -> Source {
        match self {
            Source::Byte { id, size, off } => Source::Byte { id, size, off: off + bytes },
            other => other,
        }
    }
}
