//! Slice records and their 24 bytes.

/// A record of a list, or a run of a view.
///
/// In a list, id 0 stands for zeros, and its size is 0 or len. In a view, id 0 with size 0 is
/// zeros and id 0 with size = len is uncovered.
#[derive(Clone, Copy, Debug, PartialEq, Eq, Hash)]
pub struct Record {
    /// Position in the chunk.
    pub pos: u32,
    /// The slice.
    pub id: u64,
    /// Size of the whole slice.
    pub size: u32,
    /// Offset of the first byte in its slice.
    pub off: u32,
    /// How many bytes.
    pub len: u32,
}

impl Record {
    /// Bytes of a record.
    pub const LEN: usize = 24;

    /// The record's bytes, big-endian, in the order of the fields.
    pub fn to_bytes(&self) -> [u8; Record::LEN] {
        let mut bytes = [0; Record::LEN];
        bytes[..4].copy_from_slice(&self.pos.to_be_bytes());
        bytes[4..12].copy_from_slice(&self.id.to_be_bytes());
        bytes[12..16].copy_from_slice(&self.size.to_be_bytes());
        bytes[16..20].copy_from_slice(&self.off.to_be_bytes());
        bytes[20..].copy_from_slice(&self.len.to_be_bytes());
        bytes
    }

    /// The record that these bytes are.
    pub fn from_bytes(bytes: &[u8; Record::LEN]) -> Record {
        Record {
            pos: four(bytes, 0),
            id: u64::from(four(bytes, 4)) << 32 | u64::from(four(bytes, 8)),
            size: four(bytes, 12),
            off: four(bytes, 16),
            len: four(bytes, 20),
        }
    }
}

/// The records in the bytes that a call wrote.
///
/// # Panics
/// If the bytes are no whole number of records.
pub fn records(bytes: &[u8]) -> impl Iterator<Item = Record> + '_ {
    assert!(bytes.len().is_multiple_of(Record::LEN), "no whole number of records");
    bytes.chunks_exact(Record::LEN).map(|one| Record::from_bytes(one.try_into().expect("24 bytes")))
}

/// Four bytes at a place as a big-endian number.
pub(crate) fn four(bytes: &[u8], at: usize) -> u32 {
    u32::from_be_bytes(bytes[at..at + 4].try_into().expect("four bytes"))
}
