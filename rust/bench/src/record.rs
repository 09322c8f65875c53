//! Records and pieces as bytes, at fixed widths, and the numbers of the format.

pub const RECORD: usize = 24;
pub const PIECE: usize = 34;
pub const CHUNK: u32 = 67_108_864;
pub const LIST_RECORDS: usize = 2_048;
pub const TIDIED_RECORDS: usize = 2_048;

pub type RecordBytes = [u8; RECORD];
pub type PieceBytes = [u8; PIECE];

#[derive(Clone, Copy, Debug, PartialEq, Eq)]
pub struct Record {
    pub pos: u32,
    pub id: u64,
    pub size: u32,
    pub off: u32,
    pub len: u32,
}

#[inline]
pub fn four<const N: usize>(bytes: &[u8; N], at: usize) -> u32 {
    u32::from_be_bytes([bytes[at], bytes[at + 1], bytes[at + 2], bytes[at + 3]])
}

#[inline]
pub fn id(bytes: &RecordBytes) -> u64 {
    u64::from(four(bytes, 4)) << 32 | u64::from(four(bytes, 8))
}

/// Where a piece begins in the read.
#[inline]
pub fn place(piece: &PieceBytes) -> u32 {
    four(piece, 6)
}

#[inline]
pub fn len(piece: &PieceBytes) -> u32 {
    four(piece, 30)
}

impl Record {
    #[inline]
    pub fn from_bytes(bytes: &RecordBytes) -> Record {
        Record {
            pos: four(bytes, 0),
            id: id(bytes),
            size: four(bytes, 12),
            off: four(bytes, 16),
            len: four(bytes, 20),
        }
    }

    #[inline]
    pub fn write(&self, out: &mut RecordBytes) {
        out[0..4].copy_from_slice(&self.pos.to_be_bytes());
        out[4..12].copy_from_slice(&self.id.to_be_bytes());
        out[12..16].copy_from_slice(&self.size.to_be_bytes());
        out[16..20].copy_from_slice(&self.off.to_be_bytes());
        out[20..24].copy_from_slice(&self.len.to_be_bytes());
    }

    pub fn to_bytes(self) -> RecordBytes {
        let mut bytes = [0; RECORD];
        self.write(&mut bytes);
        bytes
    }
}
