//! Lent memory as slices; a null pointer with length 0 is an empty slice.

use std::slice::{from_raw_parts, from_raw_parts_mut};

pub unsafe fn bytes<'a>(start: *const u8, len: usize) -> &'a [u8] {
    if len == 0 {
        return &[];
    }
    from_raw_parts(start, len)
}

pub unsafe fn numbers<'a>(start: *const u64, count: usize) -> &'a [u64] {
    if count == 0 {
        return &[];
    }
    from_raw_parts(start, count)
}

pub unsafe fn room<'a>(start: *mut u8, len: usize) -> &'a mut [u8] {
    if len == 0 {
        return &mut [];
    }
    from_raw_parts_mut(start, len)
}
