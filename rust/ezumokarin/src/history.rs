//! What is new since last time.

use crate::refusal::passed;
use crate::{sys, Refusal};

/// What a newer list has that an older one had not: a part of the newer.
#[derive(Clone, Copy, Debug, PartialEq, Eq, Hash)]
#[must_use]
pub enum Added<'a> {
    /// The older list is a beginning of the newer: the records behind it, none in equal lists. What
    /// the older list covers, with these laid over it, is what the newer list covers.
    Records(&'a [u8]),
    /// It is not: the whole newer list. What was known of the older one is out of date.
    Rewritten(&'a [u8]),
}

/// What is new since `older` was read: the records that `newer` has behind it, or all of `newer`
/// where `older` is no beginning of it, byte for byte. The part may be handed to the other calls as
/// a list. Which list was refused is not told, and the place of a record is counted in that list:
/// [`check`](crate::check()) tells whether it was `older`.
/// Refusals: 1 to 6, 16 of `older`, then 1 to 6, 16 of `newer`.
///
/// ```
/// use ezumokarin::{added, check, Added, Record, Refusal};
/// let slice = Record { pos: 0, id: 7, size: 20, off: 0, len: 20 };
/// let zeros = Record { pos: 4, id: 0, size: 0, off: 0, len: 8 };
/// let older = slice.to_bytes();
/// let newer = [slice.to_bytes(), zeros.to_bytes()].concat();
///
/// assert_eq!(added(&older, &newer)?, Added::Records(&zeros.to_bytes()));
/// assert_eq!(added(&newer, &newer)?, Added::Records(&[]));
/// // What stood behind the slice is gone.
/// assert_eq!(added(&newer, &older)?, Added::Rewritten(&older));
///
/// // The newer list has an odd byte; the older is in order.
/// let odd = [&newer[..], b"x"].concat();
/// assert_eq!(added(&older, &odd), Err(Refusal::ListLength));
/// assert_eq!(check(&older), Ok(1));
/// # Ok::<(), Refusal>(())
/// ```
///
/// The part lives as long as `newer`, and `older` may be gone before it:
///
/// ```
/// use ezumokarin::{added, Added};
/// let newer = vec![0; 48];
/// let new = {
///     let older = vec![0; 24];
///     added(&older, &newer)?
/// };
/// assert_eq!(new, Added::Records(&newer[24..]));
/// # Ok::<(), ezumokarin::Refusal>(())
/// ```
pub fn added<'a>(older: &[u8], newer: &'a [u8]) -> Result<Added<'a>, Refusal> {
    let answer = sys::added(older, newer);
    passed(answer.refusal, answer.place)?;
    let part = &newer[answer.offset as usize..][..answer.length as usize];
    Ok(if answer.rewritten == 0 { Added::Records(part) } else { Added::Rewritten(part) })
}
