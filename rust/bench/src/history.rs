//! The archive's call on an older and a newer list, and its comparison alone.

use ezumokarin::sys::{ezk_added, ezk_check};

pub use ezumokarin::sys::ezk_part as Part;

type In = *const u8;

// Safe because a slice is a pointer and a length that are good for the whole call.
#[inline]
pub fn added(older: &[u8], newer: &[u8]) -> Part {
    unsafe { ezk_added(older.as_ptr(), older.len(), newer.as_ptr(), newer.len()) }
}

/// The two checks that `ezk_added` makes first, as two calls: how many records the lists have, if
/// both are accepted. To copy whole answers would take about as long as to check a short list.
#[inline]
pub fn checks(older: &[u8], newer: &[u8]) -> Option<(u64, u64)> {
    let one = unsafe { ezk_check(older.as_ptr(), older.len()) };
    let other = unsafe { ezk_check(newer.as_ptr(), newer.len()) };
    (one.refusal | other.refusal == 0).then_some((one.count, other.count))
}

/// Whether the older list is a beginning of the newer one. The library doesn't export this:
/// `tools/timing/beginning` makes an archive that does.
#[derive(Clone, Copy)]
pub struct Comparison(unsafe extern "C" fn(In, usize, In, usize) -> bool);

#[cfg(not(beginning))]
pub const COMPARISON: Option<Comparison> = None;

#[cfg(beginning)]
pub const COMPARISON: Option<Comparison> = {
    extern "C" {
        fn begins(older: In, older_len: usize, newer: In, newer_len: usize) -> bool;
    }
    Some(Comparison(begins))
};

impl Comparison {
    #[inline]
    pub fn begins(self, older: &[u8], newer: &[u8]) -> bool {
        unsafe { (self.0)(older.as_ptr(), older.len(), newer.as_ptr(), newer.len()) }
    }
}
