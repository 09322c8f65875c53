//! The C interface as `include/ezumokarin.h` gives it, and one call for each function
//! that takes slices. All `unsafe` of this crate stands here: a slice is a pointer and a
//! length that are good for the whole call, and the library keeps neither.
#![allow(non_camel_case_types)]

use std::mem::{align_of, offset_of, size_of};

/// What most calls return; `refusal` is 0 on success, fields without meaning are 0.
#[repr(C)]
#[derive(Clone, Copy, Debug, Default, PartialEq, Eq)]
pub struct ezk_answer {
    /// 0, or the number of the refusal.
    pub refusal: u64,
    /// The place of the refused record, for refusals 3 to 6 and 16.
    pub place: u64,
    /// Bytes written, or records found.
    pub count: u64,
}

/// What `ezk_find` returns.
#[repr(C)]
#[derive(Clone, Copy, Debug, Default, PartialEq, Eq)]
pub struct ezk_found {
    /// 0 or 1.
    pub refusal: u64,
    /// Always 0.
    pub place: u64,
    /// 1 if a segment holds the position, else 0.
    pub found: u64,
    /// Its number in the view, from 0.
    pub segment: u64,
    /// Its position in the chunk.
    pub pos: u64,
    /// Its slice; 0 for zeros and for uncovered bytes.
    pub id: u64,
    /// Size of the whole slice; for id 0, 0 for zeros, else its own length.
    pub size: u64,
    /// Offset of its first byte in the slice.
    pub off: u64,
    /// How many bytes it has.
    pub len: u64,
}

/// What `ezk_file_plan` returns.
#[repr(C)]
#[derive(Clone, Copy, Debug, Default, PartialEq, Eq)]
pub struct ezk_file_answer {
    /// 0, or the number of the refusal.
    pub refusal: u64,
    /// The place of the refused record in its list, for refusals 3 to 6 and 16.
    pub place: u64,
    /// The chunk index of the refused list, for refusals 1 to 6 and 16; else 0.
    pub index: u64,
    /// Bytes written.
    pub count: u64,
}

/// What `ezk_next_piece` returns.
#[repr(C)]
#[derive(Clone, Copy, Debug, Default, PartialEq, Eq)]
pub struct ezk_next {
    /// 0, or the number of the refusal.
    pub refusal: u64,
    /// The place of the refused record, for refusals 3 to 6 and 16.
    pub place: u64,
    /// 1 if no byte of the read is left, else 0, also on a refusal.
    pub finished: u64,
    /// The next place; once finished, the place that was given.
    pub next: u64,
    /// The piece's mark: 0x5242 for `RB`, 0x525A for `RZ`.
    pub mark: u64,
    /// The index of its chunk.
    pub index: u64,
    /// Its place in the read, which is the place that was given.
    pub at: u64,
    /// Its slice; this and the next three are 0 for `RZ`.
    pub id: u64,
    /// The number of the block in its slice.
    pub block: u64,
    /// The block length.
    pub block_len: u64,
    /// Place of the first byte in the block.
    pub in_block: u64,
    /// How many bytes.
    pub len: u64,
}

/// What `ezk_next_file_piece` returns.
#[repr(C)]
#[derive(Clone, Copy, Debug, Default, PartialEq, Eq)]
pub struct ezk_file_next {
    /// 0, or the number of the refusal.
    pub refusal: u64,
    /// The place of the refused record in its list, for refusals 3 to 6 and 16.
    pub place: u64,
    /// The chunk index of the refused list, for refusals 1 to 6 and 16; else 0.
    pub list_index: u64,
    /// From here on as in [`ezk_next`].
    pub finished: u64,
    /// The next place.
    pub next: u64,
    /// The piece's mark.
    pub mark: u64,
    /// The index of its chunk.
    pub index: u64,
    /// Its place in the read.
    pub at: u64,
    /// Its slice.
    pub id: u64,
    /// The number of the block in its slice.
    pub block: u64,
    /// The block length.
    pub block_len: u64,
    /// Place of the first byte in the block.
    pub in_block: u64,
    /// How many bytes.
    pub len: u64,
}

/// Verdict of `ezk_judge_plan`: the plan is accepted.
pub const EZK_ACCEPTED: u64 = 1;
/// Verdict of `ezk_judge_plan`: a piece is wrong in itself.
pub const EZK_WRONG_PIECE: u64 = 2;
/// Verdict of `ezk_judge_plan`: a byte of the read is in no piece, or in more than one.
pub const EZK_WRONG_BYTE: u64 = 3;

/// What `ezk_judge_plan` returns.
#[repr(C)]
#[derive(Clone, Copy, Debug, Default, PartialEq, Eq)]
pub struct ezk_judged {
    /// 0, or the number of the refusal.
    pub refusal: u64,
    /// The place of the refused record in its list, for refusals 3 to 6 and 16.
    pub place: u64,
    /// The chunk index of the refused list, for refusals 1 to 6 and 16; else 0.
    pub index: u64,
    /// [`EZK_ACCEPTED`], [`EZK_WRONG_PIECE`] or [`EZK_WRONG_BYTE`]; 0 on a refusal.
    pub verdict: u64,
    /// The number of the wrong piece, from 0, or the place of the byte; else 0.
    pub at: u64,
}

/// What compaction returns.
#[repr(C)]
#[derive(Clone, Copy, Debug, Default, PartialEq, Eq)]
pub struct ezk_compacted {
    /// 0, or the number of the refusal.
    pub refusal: u64,
    /// The place of the refused record, for refusals 3 to 6 and 16.
    pub place: u64,
    /// Bytes of the plan.
    pub plan: u64,
    /// Bytes of the new list.
    pub list: u64,
}

/// What `ezk_added` returns.
#[repr(C)]
#[derive(Clone, Copy, Debug, Default, PartialEq, Eq)]
pub struct ezk_part {
    /// 0, or the number of the refusal.
    pub refusal: u64,
    /// The place of the refused record in its list, for refusals 3 to 6 and 16.
    pub place: u64,
    /// 1 if the list was rewritten, else 0, also on a refusal.
    pub rewritten: u64,
    /// Where the part starts in the newer list, in bytes.
    pub offset: u64,
    /// Its bytes.
    pub length: u64,
}

/// What the readers of names return.
#[repr(C)]
#[derive(Clone, Copy, Debug, Default, PartialEq, Eq)]
pub struct ezk_object {
    /// 0 or 13.
    pub refusal: u64,
    /// Always 0.
    pub place: u64,
    /// The slice.
    pub id: u64,
    /// The number of the block in its slice.
    pub block: u64,
    /// The block length.
    pub length: u64,
    /// Length of the volume name at the front of the text; 0 in a short name.
    pub volume: u64,
}

/// What the readers of keys return.
#[repr(C)]
#[derive(Clone, Copy, Debug, Default, PartialEq, Eq)]
pub struct ezk_chunk_key {
    /// 0 or 13.
    pub refusal: u64,
    /// Always 0.
    pub place: u64,
    /// The inode of the file.
    pub inode: u64,
    /// The index of the chunk in its file.
    pub index: u64,
}

/// Each field is a `u64` at its place, and there are no others: the layout that the C header gives,
/// of which `compare/header.c` asserts the same. With another one this crate doesn't compile.
macro_rules! fields {
    ($type:ident: $($field:ident),+) => {
        const _: fn($type) = |$type { $($field),+ }| {
            let _: &[u64] = &[$($field),+];
        };
        const _: () = {
            let offsets = [$(offset_of!($type, $field)),+];
            let mut field = 0;
            while field < offsets.len() {
                assert!(offsets[field] == 8 * field);
                field += 1;
            }
            assert!(size_of::<$type>() == 8 * offsets.len());
            assert!(align_of::<$type>() == align_of::<u64>());
        };
    };
}

fields!(ezk_answer: refusal, place, count);
fields!(ezk_found: refusal, place, found, segment, pos, id, size, off, len);
fields!(ezk_file_answer: refusal, place, index, count);
fields!(
    ezk_next: refusal, place, finished, next, mark, index, at, id, block, block_len, in_block, len
);
fields!(
    ezk_file_next: refusal, place, list_index, finished, next, mark, index, at, id, block,
    block_len, in_block, len
);
fields!(ezk_judged: refusal, place, index, verdict, at);
fields!(ezk_compacted: refusal, place, plan, list);
fields!(ezk_part: refusal, place, rewritten, offset, length);
fields!(ezk_object: refusal, place, id, block, length, volume);
fields!(ezk_chunk_key: refusal, place, inode, index);

#[allow(missing_docs)] // each function is described in include/ezumokarin.h
extern "C" {
    pub fn ezk_check(list: *const u8, list_len: usize) -> ezk_answer;
    pub fn ezk_view(
        list: *const u8,
        list_len: usize,
        chunk_len: u64,
        out: *mut u8,
        out_len: usize,
    ) -> ezk_answer;
    pub fn ezk_find(view: *const u8, view_len: usize, segments: u64, position: u64) -> ezk_found;
    pub fn ezk_tidy(list: *const u8, list_len: usize, out: *mut u8, out_len: usize) -> ezk_answer;
    pub fn ezk_read_plan(
        list: *const u8,
        list_len: usize,
        index: u64,
        chunk_len: u64,
        block_size: u64,
        start: u64,
        count: u64,
        out: *mut u8,
        out_len: usize,
    ) -> ezk_answer;
    pub fn ezk_file_plan(
        lists: *const u8,
        lists_len: usize,
        lengths: *const u64,
        lengths_count: usize,
        first_index: u64,
        file_len: u64,
        block_size: u64,
        start: u64,
        count: u64,
        out: *mut u8,
        out_len: usize,
    ) -> ezk_file_answer;
    pub fn ezk_next_piece(
        list: *const u8,
        list_len: usize,
        index: u64,
        chunk_len: u64,
        block_size: u64,
        start: u64,
        count: u64,
        at: u64,
    ) -> ezk_next;
    pub fn ezk_next_file_piece(
        lists: *const u8,
        lists_len: usize,
        lengths: *const u64,
        lengths_count: usize,
        first_index: u64,
        file_len: u64,
        block_size: u64,
        start: u64,
        count: u64,
        at: u64,
    ) -> ezk_file_next;
    pub fn ezk_judge_plan(
        lists: *const u8,
        lists_len: usize,
        lengths: *const u64,
        lengths_count: usize,
        first_index: u64,
        file_len: u64,
        block_size: u64,
        start: u64,
        count: u64,
        plan: *const u8,
        plan_len: usize,
    ) -> ezk_judged;
    pub fn ezk_compact(
        list: *const u8,
        list_len: usize,
        index: u64,
        block_size: u64,
        k: u64,
        new_id: u64,
        plan: *mut u8,
        plan_len: usize,
        new_list: *mut u8,
        new_list_len: usize,
    ) -> ezk_compacted;
    pub fn ezk_added(
        older: *const u8,
        older_len: usize,
        newer: *const u8,
        newer_len: usize,
    ) -> ezk_part;
    pub fn ezk_write_object_name(
        id: u64,
        block: u64,
        length: u64,
        out: *mut u8,
        out_len: usize,
    ) -> ezk_answer;
    pub fn ezk_write_full_name(
        volume: *const u8,
        volume_len: usize,
        id: u64,
        block: u64,
        length: u64,
        out: *mut u8,
        out_len: usize,
    ) -> ezk_answer;
    pub fn ezk_read_object_name(name: *const u8, name_len: usize) -> ezk_object;
    pub fn ezk_read_full_name(name: *const u8, name_len: usize) -> ezk_object;
    pub fn ezk_write_redis_key(inode: u64, index: u64, out: *mut u8, out_len: usize) -> ezk_answer;
    pub fn ezk_write_tkv_key(inode: u64, index: u64, out: *mut u8, out_len: usize) -> ezk_answer;
    pub fn ezk_read_redis_key(key: *const u8, key_len: usize) -> ezk_chunk_key;
    pub fn ezk_read_tkv_key(key: *const u8, key_len: usize) -> ezk_chunk_key;
}

/// `ezk_check`
pub fn check(list: &[u8]) -> ezk_answer {
    unsafe { ezk_check(list.as_ptr(), list.len()) }
}

/// `ezk_view`
pub fn view(list: &[u8], chunk_len: u64, out: &mut [u8]) -> ezk_answer {
    unsafe { ezk_view(list.as_ptr(), list.len(), chunk_len, out.as_mut_ptr(), out.len()) }
}

/// `ezk_find`
pub fn find(view: &[u8], segments: u64, position: u64) -> ezk_found {
    unsafe { ezk_find(view.as_ptr(), view.len(), segments, position) }
}

/// `ezk_tidy`
pub fn tidy(list: &[u8], out: &mut [u8]) -> ezk_answer {
    unsafe { ezk_tidy(list.as_ptr(), list.len(), out.as_mut_ptr(), out.len()) }
}

/// `ezk_read_plan`
pub fn read_plan(
    list: &[u8],
    index: u64,
    chunk_len: u64,
    block_size: u64,
    start: u64,
    count: u64,
    out: &mut [u8],
) -> ezk_answer {
    let (list, list_len) = (list.as_ptr(), list.len());
    let (out, out_len) = (out.as_mut_ptr(), out.len());
    unsafe {
        ezk_read_plan(list, list_len, index, chunk_len, block_size, start, count, out, out_len)
    }
}

/// `ezk_file_plan`
#[allow(clippy::too_many_arguments)] // these are the call's own inputs
pub fn file_plan(
    lists: &[u8],
    lengths: &[u64],
    first_index: u64,
    file_len: u64,
    block_size: u64,
    start: u64,
    count: u64,
    out: &mut [u8],
) -> ezk_file_answer {
    unsafe {
        ezk_file_plan(
            lists.as_ptr(),
            lists.len(),
            lengths.as_ptr(),
            lengths.len(),
            first_index,
            file_len,
            block_size,
            start,
            count,
            out.as_mut_ptr(),
            out.len(),
        )
    }
}

/// `ezk_next_piece`
pub fn next_piece(
    list: &[u8],
    index: u64,
    chunk_len: u64,
    block_size: u64,
    start: u64,
    count: u64,
    at: u64,
) -> ezk_next {
    let (list, list_len) = (list.as_ptr(), list.len());
    unsafe { ezk_next_piece(list, list_len, index, chunk_len, block_size, start, count, at) }
}

/// `ezk_next_file_piece`
#[allow(clippy::too_many_arguments)] // these are the call's own inputs
pub fn next_file_piece(
    lists: &[u8],
    lengths: &[u64],
    first_index: u64,
    file_len: u64,
    block_size: u64,
    start: u64,
    count: u64,
    at: u64,
) -> ezk_file_next {
    unsafe {
        ezk_next_file_piece(
            lists.as_ptr(),
            lists.len(),
            lengths.as_ptr(),
            lengths.len(),
            first_index,
            file_len,
            block_size,
            start,
            count,
            at,
        )
    }
}

/// `ezk_judge_plan`
#[allow(clippy::too_many_arguments)] // these are the call's own inputs
pub fn judge_plan(
    lists: &[u8],
    lengths: &[u64],
    first_index: u64,
    file_len: u64,
    block_size: u64,
    start: u64,
    count: u64,
    plan: &[u8],
) -> ezk_judged {
    unsafe {
        ezk_judge_plan(
            lists.as_ptr(),
            lists.len(),
            lengths.as_ptr(),
            lengths.len(),
            first_index,
            file_len,
            block_size,
            start,
            count,
            plan.as_ptr(),
            plan.len(),
        )
    }
}

/// `ezk_compact`
pub fn compact(
    list: &[u8],
    index: u64,
    block_size: u64,
    k: u64,
    new_id: u64,
    plan: &mut [u8],
    new_list: &mut [u8],
) -> ezk_compacted {
    let (list, list_len) = (list.as_ptr(), list.len());
    let (plan, plan_len) = (plan.as_mut_ptr(), plan.len());
    let (new, new_len) = (new_list.as_mut_ptr(), new_list.len());
    unsafe {
        ezk_compact(list, list_len, index, block_size, k, new_id, plan, plan_len, new, new_len)
    }
}

/// `ezk_added`
pub fn added(older: &[u8], newer: &[u8]) -> ezk_part {
    unsafe { ezk_added(older.as_ptr(), older.len(), newer.as_ptr(), newer.len()) }
}

/// `ezk_write_object_name`
pub fn write_object_name(id: u64, block: u64, length: u64, out: &mut [u8]) -> ezk_answer {
    unsafe { ezk_write_object_name(id, block, length, out.as_mut_ptr(), out.len()) }
}

/// `ezk_write_full_name`
pub fn write_full_name(
    volume: &[u8],
    id: u64,
    block: u64,
    length: u64,
    out: &mut [u8],
) -> ezk_answer {
    let (volume, volume_len) = (volume.as_ptr(), volume.len());
    let (out, out_len) = (out.as_mut_ptr(), out.len());
    unsafe { ezk_write_full_name(volume, volume_len, id, block, length, out, out_len) }
}

/// `ezk_read_object_name`
pub fn read_object_name(name: &[u8]) -> ezk_object {
    unsafe { ezk_read_object_name(name.as_ptr(), name.len()) }
}

/// `ezk_read_full_name`
pub fn read_full_name(name: &[u8]) -> ezk_object {
    unsafe { ezk_read_full_name(name.as_ptr(), name.len()) }
}

/// `ezk_write_redis_key`
pub fn write_redis_key(inode: u64, index: u64, out: &mut [u8]) -> ezk_answer {
    unsafe { ezk_write_redis_key(inode, index, out.as_mut_ptr(), out.len()) }
}

/// `ezk_write_tkv_key`
pub fn write_tkv_key(inode: u64, index: u64, out: &mut [u8]) -> ezk_answer {
    unsafe { ezk_write_tkv_key(inode, index, out.as_mut_ptr(), out.len()) }
}

/// `ezk_read_redis_key`
pub fn read_redis_key(key: &[u8]) -> ezk_chunk_key {
    unsafe { ezk_read_redis_key(key.as_ptr(), key.len()) }
}

/// `ezk_read_tkv_key`
pub fn read_tkv_key(key: &[u8]) -> ezk_chunk_key {
    unsafe { ezk_read_tkv_key(key.as_ptr(), key.len()) }
}
