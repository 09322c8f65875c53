//! The fixed numbers of the requirements, one name each.

/// Bytes of a chunk: 64 MiB.
pub const CHUNK: u64 = 67_108_864;
/// Bytes of a slice record.
pub const RECORD: usize = 24;
/// Bytes of a piece of a plan.
pub const PIECE: usize = 34;
/// Records that a list may have (refusal 2).
pub const LIST_RECORDS: usize = 2_048;
/// Records that a tidied list may have (refusal 11).
pub const TIDIED_RECORDS: usize = 2_048;
/// Lists that a read of a file may have (refusal 21).
pub const FILE_LISTS: usize = 16;
/// Smallest block size.
pub const BLOCK_SIZE_MIN: u64 = 65_536;
/// Largest block size, and so the largest block length in a name.
pub const BLOCK_SIZE_MAX: u64 = 16_777_216;
/// Largest number of a block in an object name.
pub const BLOCK_MAX: u64 = 1_023;
/// Bytes of the longest volume name.
pub const VOLUME_MAX: usize = 63;
/// Largest index of a chunk.
pub const INDEX_MAX: u64 = 4_294_967_295;
/// Bytes of a TKV chunk key.
pub const TKV_KEY: usize = 14;
