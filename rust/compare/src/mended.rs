//! A refused read, mended: what a plan of it would be if nothing were refused.

use second::{block_size, check, file_plan_bytes};

use crate::joined::Joined;

/// The smallest block size.
const BLOCK: u64 = 65_536;

/// A file whose refused lists are empty, and an allowed block size; none for refusal 21.
pub fn of(file: &Joined, size: u64) -> Option<(Joined, u64)> {
    // A read of nothing is refused for 21 before all else.
    let refused = file_plan_bytes(&file.file(), BLOCK, 0, 0).err();
    if refused.is_some_and(|refused| refused.refusal.number == 21) {
        return None;
    }
    let mend = |list: &[u8]| if check(list).is_ok() { list.to_vec() } else { Vec::new() };
    let lists: Vec<Vec<u8>> = file.each().into_iter().map(mend).collect();
    let size = if block_size(size).is_ok() { size } else { BLOCK };
    Some((Joined::of(&lists, file.first_index, file.file_len), size))
}
