//! Chunk keys of Redis and of TKV.

use crate::limits::{INDEX_MAX, TKV_KEY};
use crate::record::{big_endian, four};
use crate::{put, Answer, Refusal};

#[derive(Clone, Copy, Debug, PartialEq, Eq)]
pub struct ChunkKey {
    pub inode: u64,
    pub index: u64,
}

/// Refusals 13, 12.
pub fn write_redis_key(inode: u64, index: u64, out: &mut [u8]) -> Answer {
    put(redis_key(inode, index), out)
}

/// Refusals 13, 12.
pub fn write_tkv_key(inode: u64, index: u64, out: &mut [u8]) -> Answer {
    put(tkv_key(inode, index), out)
}

/// Refusal 13. The text is compared with the key that its numbers have.
pub fn read_redis_key(key: &[u8]) -> Result<ChunkKey, Refusal> {
    let found = numbers_in(key).ok_or(Refusal::of(13))?;
    if redis_key(found.inode, found.index)? != key {
        return Err(Refusal::of(13));
    }
    Ok(found)
}

/// Refusal 13.
pub fn read_tkv_key(key: &[u8]) -> Result<ChunkKey, Refusal> {
    if key.len() != TKV_KEY || key[0] != b'A' || key[9] != b'C' {
        return Err(Refusal::of(13));
    }
    let inode = key[1..9].iter().rev().fold(0, |number, byte| number * 256 + u64::from(*byte));
    Ok(ChunkKey { inode, index: big_endian(&key[10..14]) })
}

/// The text of a Redis key.
pub fn redis_key(inode: u64, index: u64) -> Result<Vec<u8>, Refusal> {
    if index > INDEX_MAX {
        return Err(Refusal::of(13));
    }
    Ok(format!("c{inode}_{index}").into_bytes())
}

/// The bytes of a TKV key.
pub fn tkv_key(inode: u64, index: u64) -> Result<Vec<u8>, Refusal> {
    if index > INDEX_MAX {
        return Err(Refusal::of(13));
    }
    Ok([&b"A"[..], &inode.to_le_bytes(), b"C", &four(index)].concat())
}

fn numbers_in(key: &[u8]) -> Option<ChunkKey> {
    let numbers = std::str::from_utf8(key).ok()?.strip_prefix('c')?;
    let (inode, index) = numbers.split_once('_')?;
    Some(ChunkKey { inode: inode.parse().ok()?, index: index.parse().ok()? })
}
