//! Object names, short and full. A text is read by finding three numbers in it
//! and comparing it with the name that those numbers have.

use crate::limits::{BLOCK_MAX, BLOCK_SIZE_MAX, VOLUME_MAX};
use crate::{put, Answer, Refusal};

#[derive(Clone, Copy, Debug, PartialEq, Eq)]
pub struct ObjectName {
    pub id: u64,
    pub block: u64,
    pub length: u64,
}

/// Refusals 13, 12.
pub fn write_object_name(id: u64, block: u64, length: u64, out: &mut [u8]) -> Answer {
    put(object_name(id, block, length), out)
}

/// Refusals 13, 12.
pub fn write_full_name(volume: &[u8], id: u64, block: u64, length: u64, out: &mut [u8]) -> Answer {
    put(full_name(volume, id, block, length), out)
}

/// Refusal 13.
pub fn read_object_name(name: &[u8]) -> Result<ObjectName, Refusal> {
    let found = numbers_in(name).ok_or(Refusal::of(13))?;
    if object_name(found.id, found.block, found.length)? != name {
        return Err(Refusal::of(13));
    }
    Ok(found)
}

/// Refusal 13.
pub fn read_full_name(name: &[u8]) -> Result<ObjectName, Refusal> {
    let (volume, rest) = at_first_slash(name).ok_or(Refusal::of(13))?;
    if !is_volume(volume) {
        return Err(Refusal::of(13));
    }
    read_object_name(rest)
}

/// The volume name of a full name, as a part of the name; empty on refusal.
pub fn volume_of(name: &[u8]) -> &[u8] {
    match (read_full_name(name), at_first_slash(name)) {
        (Ok(_), Some((volume, _))) => volume,
        _ => &name[..0],
    }
}

/// The text of a short name.
pub fn object_name(id: u64, block: u64, length: u64) -> Result<Vec<u8>, Refusal> {
    if id == 0 || block > BLOCK_MAX || length == 0 || length > BLOCK_SIZE_MAX {
        return Err(Refusal::of(13));
    }
    let millions = id / 1000 / 1000;
    let thousands = id / 1000;
    Ok(format!("chunks/{millions}/{thousands}/{id}_{block}_{length}").into_bytes())
}

/// The text of a full name.
pub fn full_name(volume: &[u8], id: u64, block: u64, length: u64) -> Result<Vec<u8>, Refusal> {
    if !is_volume(volume) {
        return Err(Refusal::of(13));
    }
    Ok([volume, b"/", &object_name(id, block, length)?].concat())
}

fn is_volume(name: &[u8]) -> bool {
    let allowed = |byte: &u8| matches!(byte, b'a'..=b'z' | b'0'..=b'9' | b'-');
    (1..=VOLUME_MAX).contains(&name.len()) && name.iter().all(allowed)
}

fn at_first_slash(name: &[u8]) -> Option<(&[u8], &[u8])> {
    let slash = name.iter().position(|byte| *byte == b'/')?;
    Some((&name[..slash], &name[slash + 1..]))
}

/// The numbers after the last slash; the caller compares the rest.
fn numbers_in(name: &[u8]) -> Option<ObjectName> {
    let (_, last) = std::str::from_utf8(name).ok()?.rsplit_once('/')?;
    let mut numbers = last.split('_').map(|digits| digits.parse().ok());
    Some(ObjectName { id: numbers.next()??, block: numbers.next()??, length: numbers.next()?? })
}
