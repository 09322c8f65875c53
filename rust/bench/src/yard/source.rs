//! Sources of bytes.

use crate::record::Record;

/// What a position has as its source.
#[derive(Clone, Copy, PartialEq, Eq)]
pub enum Source {
    Nothing,
    Zero,
    Byte { id: u64, size: u32, off: u32 },
}

impl Source {
    /// A position that the record covers.
    #[inline]
    pub fn of(record: &Record, p: u32) -> Source {
        if record.id == 0 {
            return Source::Zero;
        }
        Source::Byte { id: record.id, size: record.size, off: record.off + (p - record.pos) }
    }

    #[inline]
    pub fn after(self, bytes: u32) -> Source {
        match self {
            Source::Byte { id, size, off } => Source::Byte { id, size, off: off + bytes },
            other => other,
        }
    }

    /// A run from `pos` on, as a record of a view.
    #[inline]
    pub fn run(self, pos: u32, len: u32) -> Record {
        match self {
            Source::Nothing => Record { pos, id: 0, size: len, off: 0, len },
            Source::Zero => Record { pos, id: 0, size: 0, off: 0, len },
            Source::Byte { id, size, off } => Record { pos, id, size, off, len },
        }
    }
}
