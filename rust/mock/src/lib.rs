//! A stand-in for the real library, for testing the tests: the C interface over `second`.

mod answers;
mod judge;
mod lent;
mod next;

use answers::{across, answered, compacted, found, key, object, part};
use answers::{ezk_answer, ezk_chunk_key, ezk_compacted, ezk_file_answer};
use answers::{ezk_found, ezk_object, ezk_part};
use judge::{ezk_judged, judged};
use lent::{bytes, numbers, room};
use next::{ezk_file_next, ezk_next, file_next, next};

/// # Safety
/// As the C header says: each pointer has as many bytes as its length.
#[no_mangle]
pub unsafe extern "C" fn ezk_check(list: *const u8, list_len: usize) -> ezk_answer {
    answered(second::check(bytes(list, list_len)))
}

/// # Safety
/// As for [`ezk_check`].
#[no_mangle]
pub unsafe extern "C" fn ezk_view(
    list: *const u8,
    list_len: usize,
    chunk_len: u64,
    out: *mut u8,
    out_len: usize,
) -> ezk_answer {
    answered(second::view(bytes(list, list_len), chunk_len, room(out, out_len)))
}

/// # Safety
/// As for [`ezk_check`].
#[no_mangle]
pub unsafe extern "C" fn ezk_find(
    view: *const u8,
    view_len: usize,
    segments: u64,
    position: u64,
) -> ezk_found {
    found(second::find(bytes(view, view_len), segments, position))
}

/// # Safety
/// As for [`ezk_check`].
#[no_mangle]
pub unsafe extern "C" fn ezk_tidy(
    list: *const u8,
    list_len: usize,
    out: *mut u8,
    out_len: usize,
) -> ezk_answer {
    answered(second::tidy(bytes(list, list_len), room(out, out_len)))
}

/// # Safety
/// As for [`ezk_check`].
#[no_mangle]
pub unsafe extern "C" fn ezk_read_plan(
    list: *const u8,
    list_len: usize,
    index: u64,
    chunk_len: u64,
    block_size: u64,
    start: u64,
    count: u64,
    out: *mut u8,
    out_len: usize,
) -> ezk_answer {
    let (list, out) = (bytes(list, list_len), room(out, out_len));
    answered(second::read_plan(list, index, chunk_len, block_size, start, count, out))
}

/// # Safety
/// As for [`ezk_check`]; `lengths` has as many numbers as its count.
#[no_mangle]
pub unsafe extern "C" fn ezk_file_plan(
    lists: *const u8,
    lists_len: usize,
    lengths: *const u64,
    lengths_count: usize,
    first_index: u64,
    file_len: u64,
    block_size: u64,
    start: u64,
    count: u64,
    out: *mut u8,
    out_len: usize,
) -> ezk_file_answer {
    let (lists, lengths) = (bytes(lists, lists_len), numbers(lengths, lengths_count));
    let file = second::File { lists, lengths, first_index, file_len };
    across(second::file_plan(&file, block_size, start, count, room(out, out_len)))
}

/// # Safety
/// As for [`ezk_check`].
#[no_mangle]
pub unsafe extern "C" fn ezk_next_piece(
    list: *const u8,
    list_len: usize,
    index: u64,
    chunk_len: u64,
    block_size: u64,
    start: u64,
    count: u64,
    at: u64,
) -> ezk_next {
    let list = bytes(list, list_len);
    next(second::next_piece(list, index, chunk_len, block_size, start, count, at), at)
}

/// # Safety
/// As for [`ezk_file_plan`].
#[no_mangle]
pub unsafe extern "C" fn ezk_next_file_piece(
    lists: *const u8,
    lists_len: usize,
    lengths: *const u64,
    lengths_count: usize,
    first_index: u64,
    file_len: u64,
    block_size: u64,
    start: u64,
    count: u64,
    at: u64,
) -> ezk_file_next {
    let (lists, lengths) = (bytes(lists, lists_len), numbers(lengths, lengths_count));
    let file = second::File { lists, lengths, first_index, file_len };
    file_next(second::next_file_piece(&file, block_size, start, count, at), at)
}

/// # Safety
/// As for [`ezk_file_plan`].
#[no_mangle]
pub unsafe extern "C" fn ezk_judge_plan(
    lists: *const u8,
    lists_len: usize,
    lengths: *const u64,
    lengths_count: usize,
    first_index: u64,
    file_len: u64,
    block_size: u64,
    start: u64,
    count: u64,
    plan: *const u8,
    plan_len: usize,
) -> ezk_judged {
    let (lists, lengths) = (bytes(lists, lists_len), numbers(lengths, lengths_count));
    let file = second::File { lists, lengths, first_index, file_len };
    judged(second::judge(&file, block_size, start, count, bytes(plan, plan_len)))
}

/// # Safety
/// As for [`ezk_check`].
#[no_mangle]
pub unsafe extern "C" fn ezk_compact(
    list: *const u8,
    list_len: usize,
    index: u64,
    block_size: u64,
    k: u64,
    new_id: u64,
    plan: *mut u8,
    plan_len: usize,
    new_list: *mut u8,
    new_list_len: usize,
) -> ezk_compacted {
    let list = bytes(list, list_len);
    let (plan, new_list) = (room(plan, plan_len), room(new_list, new_list_len));
    compacted(second::compact(list, index, block_size, k, new_id, plan, new_list))
}

/// # Safety
/// As for [`ezk_check`].
#[no_mangle]
pub unsafe extern "C" fn ezk_added(
    older: *const u8,
    older_len: usize,
    newer: *const u8,
    newer_len: usize,
) -> ezk_part {
    let (older, newer) = (bytes(older, older_len), bytes(newer, newer_len));
    part(newer, second::added(older, newer), second::rewritten(older, newer))
}

/// # Safety
/// As for [`ezk_check`].
#[no_mangle]
pub unsafe extern "C" fn ezk_write_object_name(
    id: u64,
    block: u64,
    length: u64,
    out: *mut u8,
    out_len: usize,
) -> ezk_answer {
    answered(second::write_object_name(id, block, length, room(out, out_len)))
}

/// # Safety
/// As for [`ezk_check`].
#[no_mangle]
pub unsafe extern "C" fn ezk_write_full_name(
    volume: *const u8,
    volume_len: usize,
    id: u64,
    block: u64,
    length: u64,
    out: *mut u8,
    out_len: usize,
) -> ezk_answer {
    let volume = bytes(volume, volume_len);
    answered(second::write_full_name(volume, id, block, length, room(out, out_len)))
}

/// # Safety
/// As for [`ezk_check`].
#[no_mangle]
pub unsafe extern "C" fn ezk_read_object_name(name: *const u8, name_len: usize) -> ezk_object {
    object(second::read_object_name(bytes(name, name_len)), b"")
}

/// # Safety
/// As for [`ezk_check`].
#[no_mangle]
pub unsafe extern "C" fn ezk_read_full_name(name: *const u8, name_len: usize) -> ezk_object {
    let name = bytes(name, name_len);
    object(second::read_full_name(name), second::volume_of(name))
}

/// # Safety
/// As for [`ezk_check`].
#[no_mangle]
pub unsafe extern "C" fn ezk_write_redis_key(
    inode: u64,
    index: u64,
    out: *mut u8,
    out_len: usize,
) -> ezk_answer {
    answered(second::write_redis_key(inode, index, room(out, out_len)))
}

/// # Safety
/// As for [`ezk_check`].
#[no_mangle]
pub unsafe extern "C" fn ezk_write_tkv_key(
    inode: u64,
    index: u64,
    out: *mut u8,
    out_len: usize,
) -> ezk_answer {
    answered(second::write_tkv_key(inode, index, room(out, out_len)))
}

/// # Safety
/// As for [`ezk_check`].
#[no_mangle]
pub unsafe extern "C" fn ezk_read_redis_key(text: *const u8, text_len: usize) -> ezk_chunk_key {
    key(second::read_redis_key(bytes(text, text_len)))
}

/// # Safety
/// As for [`ezk_check`].
#[no_mangle]
pub unsafe extern "C" fn ezk_read_tkv_key(text: *const u8, text_len: usize) -> ezk_chunk_key {
    key(second::read_tkv_key(bytes(text, text_len)))
}
