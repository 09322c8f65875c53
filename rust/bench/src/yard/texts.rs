//! Names and keys in plain Rust, without memory of their own.

use crate::yard::digits::Pen;

/// Whether the numbers may stand in a name.
pub fn sound(id: u64, block: u64, length: u64) -> bool {
    id > 0 && block <= 1_023 && (1..=16_777_216).contains(&length)
}

pub fn is_volume(name: &[u8]) -> bool {
    let allowed = |b: &u8| matches!(b, b'a'..=b'z' | b'0'..=b'9' | b'-');
    (1..=63).contains(&name.len()) && name.iter().all(allowed)
}

pub fn write_short(id: u64, block: u64, length: u64, out: &mut [u8]) -> Option<usize> {
    if !sound(id, block, length) {
        return None;
    }
    let mut pen = Pen::new(out);
    object(&mut pen, id, block, length)?;
    Some(pen.at)
}

pub fn write_name(
    volume: &[u8],
    id: u64,
    block: u64,
    length: u64,
    out: &mut [u8],
) -> Option<usize> {
    if !sound(id, block, length) || !is_volume(volume) {
        return None;
    }
    let mut pen = Pen::new(out);
    pen.text(volume)?;
    pen.text(b"/")?;
    object(&mut pen, id, block, length)?;
    Some(pen.at)
}

/// The short name, which is a full name's end.
fn object(pen: &mut Pen, id: u64, block: u64, length: u64) -> Option<()> {
    pen.text(b"chunks/")?;
    pen.digits(id / 1_000_000)?;
    pen.text(b"/")?;
    pen.digits(id / 1_000)?;
    pen.text(b"/")?;
    pen.digits(id)?;
    pen.text(b"_")?;
    pen.digits(block)?;
    pen.text(b"_")?;
    pen.digits(length)
}

pub fn write_redis(inode: u64, index: u64, out: &mut [u8]) -> Option<usize> {
    u32::try_from(index).ok()?;
    let mut pen = Pen::new(out);
    pen.text(b"c")?;
    pen.digits(inode)?;
    pen.text(b"_")?;
    pen.digits(index)?;
    Some(pen.at)
}

/// Reads a full name: length of the volume name, id, block, block length.
pub fn read_name(name: &[u8]) -> Option<(usize, u64, u64, u64)> {
    let slash = name.iter().position(|byte| *byte == b'/')?;
    if !is_volume(&name[..slash]) {
        return None;
    }
    let (millions, rest) = digits(name[slash..].strip_prefix(b"/chunks/")?)?;
    let (thousands, rest) = digits(rest.strip_prefix(b"/")?)?;
    let (id, rest) = digits(rest.strip_prefix(b"/")?)?;
    let (block, rest) = digits(rest.strip_prefix(b"_")?)?;
    let (length, rest) = digits(rest.strip_prefix(b"_")?)?;
    let agree = millions == id / 1_000_000 && thousands == id / 1_000;
    (agree && sound(id, block, length) && rest.is_empty()).then_some((slash, id, block, length))
}

pub fn read_redis(key: &[u8]) -> Option<(u64, u64)> {
    let (inode, rest) = digits(key.strip_prefix(b"c")?)?;
    let (index, rest) = digits(rest.strip_prefix(b"_")?)?;
    (rest.is_empty() && index <= u64::from(u32::MAX)).then_some((inode, index))
}

/// A decimal number without zeros in front, and what follows it.
fn digits(text: &[u8]) -> Option<(u64, &[u8])> {
    let count = text.iter().take_while(|byte| byte.is_ascii_digit()).count();
    if count == 0 || count > 1 && text[0] == b'0' {
        return None;
    }
    let mut number: u64 = 0;
    for byte in &text[..count] {
        number = number.checked_mul(10)?.checked_add(u64::from(byte - b'0'))?;
    }
    Some((number, &text[count..]))
}

pub fn write_tkv(inode: u64, index: u64, out: &mut [u8]) -> Option<usize> {
    let index = u32::try_from(index).ok()?;
    let out: &mut [u8; 14] = out.first_chunk_mut()?;
    out[0] = b'A';
    out[1..9].copy_from_slice(&inode.to_le_bytes());
    out[9] = b'C';
    out[10..14].copy_from_slice(&index.to_be_bytes());
    Some(14)
}

pub fn read_tkv(key: &[u8]) -> Option<(u64, u64)> {
    let key: &[u8; 14] = key.try_into().ok()?;
    if key[0] != b'A' || key[9] != b'C' {
        return None;
    }
    let inode = u64::from_le_bytes(key[1..9].try_into().ok()?);
    let index = u32::from_be_bytes(key[10..14].try_into().ok()?);
    Some((inode, u64::from(index)))
}
