//! Object names, short and full.

use crate::lists::counted;
use crate::refusal::passed;
use crate::{sys, Refusal};

/// The numbers in an object name.
#[derive(Clone, Copy, Debug, PartialEq, Eq, Hash)]
pub struct ObjectName {
    /// The slice, from 1.
    pub id: u64,
    /// The number of the block in its slice, 0 to 1,023.
    pub block: u64,
    /// The block length, 1 to 16,777,216.
    pub length: u64,
}

/// A full name: the volume is a part of the text that was read.
#[derive(Clone, Copy, Debug, PartialEq, Eq, Hash)]
pub struct FullName<'a> {
    /// The volume name.
    pub volume: &'a [u8],
    /// The name behind it.
    pub object: ObjectName,
}

/// Writes a short name and returns its length. Refusals: 13, 12.
///
/// ```
/// let mut out = [0; 64];
/// let count = ezumokarin::write_object_name(1_234_567, 2, 100, &mut out)?;
/// assert_eq!(&out[..count], b"chunks/1/1234/1234567_2_100");
/// # Ok::<(), ezumokarin::Refusal>(())
/// ```
pub fn write_object_name(
    id: u64,
    block: u64,
    length: u64,
    out: &mut [u8],
) -> Result<usize, Refusal> {
    counted(sys::write_object_name(id, block, length, out))
}

/// Writes a full name and returns its length. Refusals: 13, 12.
///
/// ```
/// let mut out = [0; 64];
/// let count = ezumokarin::write_full_name(b"jfstest", 1, 2, 2_097_152, &mut out)?;
/// assert_eq!(&out[..count], b"jfstest/chunks/0/0/1_2_2097152");
/// # Ok::<(), ezumokarin::Refusal>(())
/// ```
pub fn write_full_name(
    volume: &[u8],
    id: u64,
    block: u64,
    length: u64,
    out: &mut [u8],
) -> Result<usize, Refusal> {
    counted(sys::write_full_name(volume, id, block, length, out))
}

/// Reads a short name. Refusal: 13.
///
/// ```
/// let name = ezumokarin::read_object_name(b"chunks/0/0/3_1_1048576")?;
/// assert_eq!((name.id, name.block, name.length), (3, 1, 1_048_576));
/// # Ok::<(), ezumokarin::Refusal>(())
/// ```
pub fn read_object_name(name: &[u8]) -> Result<ObjectName, Refusal> {
    object(sys::read_object_name(name))
}

/// Reads a full name. Refusal: 13.
///
/// ```
/// let name = ezumokarin::read_full_name(b"jfstest/chunks/0/0/1_0_4194304")?;
/// assert_eq!(name.volume, b"jfstest");
/// assert_eq!(name.object.id, 1);
/// # Ok::<(), ezumokarin::Refusal>(())
/// ```
pub fn read_full_name(name: &[u8]) -> Result<FullName<'_>, Refusal> {
    let answer = sys::read_full_name(name);
    let object = object(answer)?;
    Ok(FullName { volume: &name[..answer.volume as usize], object })
}

fn object(answer: sys::ezk_object) -> Result<ObjectName, Refusal> {
    passed(answer.refusal, answer.place)?;
    Ok(ObjectName { id: answer.id, block: answer.block, length: answer.length })
}
