//! Writing an answer into a lent buffer.

use crate::Refusal;

/// How many bytes were written (or records found), or the refusal.
pub type Answer = Result<usize, Refusal>;

/// Writes the bytes at the front of the buffer; refusal 12 where they don't fit.
pub fn put(bytes: Result<Vec<u8>, Refusal>, out: &mut [u8]) -> Answer {
    let bytes = bytes?;
    if out.len() < bytes.len() {
        return Err(Refusal::of(12));
    }
    out[..bytes.len()].copy_from_slice(&bytes);
    Ok(bytes.len())
}
