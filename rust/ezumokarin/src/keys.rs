//! Chunk keys of Redis and of TKV.

use crate::lists::counted;
use crate::refusal::passed;
use crate::{sys, Refusal};

/// The numbers in a chunk key.
#[derive(Clone, Copy, Debug, PartialEq, Eq, Hash)]
pub struct ChunkKey {
    /// The inode of the file.
    pub inode: u64,
    /// The index of the chunk in its file, below 2^32.
    pub index: u64,
}

/// Writes a Redis chunk key and returns its length. Refusals: 13, 12.
///
/// ```
/// let mut out = [0; 32];
/// let count = ezumokarin::write_redis_key(100, 2, &mut out)?;
/// assert_eq!(&out[..count], b"c100_2");
/// # Ok::<(), ezumokarin::Refusal>(())
/// ```
pub fn write_redis_key(inode: u64, index: u64, out: &mut [u8]) -> Result<usize, Refusal> {
    counted(sys::write_redis_key(inode, index, out))
}

/// Writes a TKV chunk key, 14 bytes. Refusals: 13, 12.
///
/// ```
/// let mut out = [0; 14];
/// assert_eq!(ezumokarin::write_tkv_key(2, 1, &mut out), Ok(14));
/// assert_eq!(&out, b"A\x02\0\0\0\0\0\0\0C\0\0\0\x01");
/// ```
pub fn write_tkv_key(inode: u64, index: u64, out: &mut [u8]) -> Result<usize, Refusal> {
    counted(sys::write_tkv_key(inode, index, out))
}

/// Reads a Redis chunk key. Refusal: 13.
///
/// ```
/// use ezumokarin::{read_redis_key, ChunkKey, Refusal};
/// assert_eq!(read_redis_key(b"c100_0"), Ok(ChunkKey { inode: 100, index: 0 }));
/// assert_eq!(read_redis_key(b"c100_0,5"), Err(Refusal::Form));
/// ```
pub fn read_redis_key(key: &[u8]) -> Result<ChunkKey, Refusal> {
    chunk_key(sys::read_redis_key(key))
}

/// Reads a TKV chunk key. Refusal: 13.
///
/// ```
/// use ezumokarin::{read_tkv_key, ChunkKey};
/// let key = b"A\x02\0\0\0\0\0\0\0C\0\0\0\x01";
/// assert_eq!(read_tkv_key(key), Ok(ChunkKey { inode: 2, index: 1 }));
/// ```
pub fn read_tkv_key(key: &[u8]) -> Result<ChunkKey, Refusal> {
    chunk_key(sys::read_tkv_key(key))
}

fn chunk_key(answer: sys::ezk_chunk_key) -> Result<ChunkKey, Refusal> {
    passed(answer.refusal, answer.place)?;
    Ok(ChunkKey { inode: answer.inode, index: answer.index })
}
