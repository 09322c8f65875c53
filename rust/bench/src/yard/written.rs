//! Names and keys written by Rust's own formatting, after the same checks.

use std::io::Write;

use crate::yard::texts::{is_volume, sound};

pub fn write_short(id: u64, block: u64, length: u64, out: &mut [u8]) -> Option<usize> {
    if !sound(id, block, length) {
        return None;
    }
    let room = out.len();
    let mut out = out;
    write!(out, "chunks/{}/{}/{id}_{block}_{length}", id / 1_000_000, id / 1_000).ok()?;
    Some(room - out.len())
}

pub fn write_name(
    volume: &[u8],
    id: u64,
    block: u64,
    length: u64,
    out: &mut [u8],
) -> Option<usize> {
    if !sound(id, block, length) || !is_volume(volume) {
        return None;
    }
    let room = out.len();
    let mut out = out;
    out.write_all(volume).ok()?;
    write!(out, "/chunks/{}/{}/{id}_{block}_{length}", id / 1_000_000, id / 1_000).ok()?;
    Some(room - out.len())
}

pub fn write_redis(inode: u64, index: u64, out: &mut [u8]) -> Option<usize> {
    u32::try_from(index).ok()?;
    let room = out.len();
    let mut out = out;
    write!(out, "c{inode}_{index}").ok()?;
    Some(room - out.len())
}
