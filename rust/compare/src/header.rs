//! Every call through C that was compiled from `include/ezumokarin.h` (`header.c`), which
//! hands the fields over in a row of numbers.

use ezumokarin::sys::{ezk_answer, ezk_chunk_key, ezk_compacted, ezk_file_answer};
use ezumokarin::sys::{ezk_file_next, ezk_found, ezk_judged, ezk_next, ezk_object, ezk_part};

use crate::binding::Binding;

pub const BINDING: Binding = Binding {
    name: "C header",
    check,
    view,
    find,
    tidy,
    read_plan,
    file_plan,
    next_piece,
    next_file_piece,
    judge_plan,
    compact,
    added,
    write_object_name,
    write_full_name,
    read_object_name,
    read_full_name,
    write_redis_key,
    write_tkv_key,
    read_redis_key,
    read_tkv_key,
};

type In = *const u8;
type Numbers = *const u64;
type Out = *mut u8;
type To = *mut u64;

extern "C" {
    fn via_check(list: In, len: usize, to: To);
    fn via_view(list: In, len: usize, chunk_len: u64, out: Out, out_len: usize, to: To);
    fn via_find(view: In, len: usize, segments: u64, position: u64, to: To);
    fn via_tidy(list: In, len: usize, out: Out, out_len: usize, to: To);
    fn via_read_plan(
        list: In,
        len: usize,
        index: u64,
        chunk_len: u64,
        block_size: u64,
        start: u64,
        count: u64,
        out: Out,
        out_len: usize,
        to: To,
    );
    fn via_file_plan(
        lists: In,
        lists_len: usize,
        lengths: Numbers,
        lengths_count: usize,
        first_index: u64,
        file_len: u64,
        block_size: u64,
        start: u64,
        count: u64,
        out: Out,
        out_len: usize,
        to: To,
    );
    fn via_next_piece(
        list: In,
        len: usize,
        index: u64,
        chunk_len: u64,
        block_size: u64,
        start: u64,
        count: u64,
        at: u64,
        to: To,
    );
    fn via_next_file_piece(
        lists: In,
        lists_len: usize,
        lengths: Numbers,
        lengths_count: usize,
        first_index: u64,
        file_len: u64,
        block_size: u64,
        start: u64,
        count: u64,
        at: u64,
        to: To,
    );
    fn via_judge_plan(
        lists: In,
        lists_len: usize,
        lengths: Numbers,
        lengths_count: usize,
        first_index: u64,
        file_len: u64,
        block_size: u64,
        start: u64,
        count: u64,
        plan: In,
        plan_len: usize,
        to: To,
    );
    fn via_compact(
        list: In,
        len: usize,
        index: u64,
        block_size: u64,
        k: u64,
        new_id: u64,
        plan: Out,
        plan_len: usize,
        new_list: Out,
        new_list_len: usize,
        to: To,
    );
    fn via_added(older: In, older_len: usize, newer: In, newer_len: usize, to: To);
    fn via_write_object_name(id: u64, block: u64, length: u64, out: Out, out_len: usize, to: To);
    fn via_write_full_name(
        volume: In,
        volume_len: usize,
        id: u64,
        block: u64,
        length: u64,
        out: Out,
        out_len: usize,
        to: To,
    );
    fn via_read_object_name(name: In, len: usize, to: To);
    fn via_read_full_name(name: In, len: usize, to: To);
    fn via_write_redis_key(inode: u64, index: u64, out: Out, out_len: usize, to: To);
    fn via_write_tkv_key(inode: u64, index: u64, out: Out, out_len: usize, to: To);
    fn via_read_redis_key(key: In, len: usize, to: To);
    fn via_read_tkv_key(key: In, len: usize, to: To);
}

/// Hands the call a row of numbers to fill. Each call below is safe because a slice is good
/// for its length, and a row for as many numbers as the C code hands over.
fn filled<const FIELDS: usize>(call: impl Fn(To)) -> [u64; FIELDS] {
    let mut row = [u64::MAX; FIELDS];
    call(row.as_mut_ptr());
    row
}

fn answer([refusal, place, count]: [u64; 3]) -> ezk_answer {
    ezk_answer { refusal, place, count }
}

fn found(row: [u64; 9]) -> ezk_found {
    let [refusal, place, found, segment, pos, id, size, off, len] = row;
    ezk_found { refusal, place, found, segment, pos, id, size, off, len }
}

fn next(row: [u64; 12]) -> ezk_next {
    let [refusal, place, finished, next, mark, index, at, piece @ ..] = row;
    let [id, block, block_len, in_block, len] = piece;
    ezk_next {
        refusal,
        place,
        finished,
        next,
        mark,
        index,
        at,
        id,
        block,
        block_len,
        in_block,
        len,
    }
}

fn file_next(row: [u64; 13]) -> ezk_file_next {
    let [refusal, place, list_index, finished, next, mark, index, at, piece @ ..] = row;
    let [id, block, block_len, in_block, len] = piece;
    ezk_file_next {
        refusal,
        place,
        list_index,
        finished,
        next,
        mark,
        index,
        at,
        id,
        block,
        block_len,
        in_block,
        len,
    }
}

fn judged([refusal, place, index, verdict, at]: [u64; 5]) -> ezk_judged {
    ezk_judged { refusal, place, index, verdict, at }
}

fn part([refusal, place, rewritten, offset, length]: [u64; 5]) -> ezk_part {
    ezk_part { refusal, place, rewritten, offset, length }
}

fn object([refusal, place, id, block, length, volume]: [u64; 6]) -> ezk_object {
    ezk_object { refusal, place, id, block, length, volume }
}

fn chunk_key([refusal, place, inode, index]: [u64; 4]) -> ezk_chunk_key {
    ezk_chunk_key { refusal, place, inode, index }
}

fn check(list: &[u8]) -> ezk_answer {
    answer(filled(|to| unsafe { via_check(list.as_ptr(), list.len(), to) }))
}

fn view(list: &[u8], chunk_len: u64, out: &mut [u8]) -> ezk_answer {
    let (out, out_len) = (out.as_mut_ptr(), out.len());
    answer(filled(|to| unsafe { via_view(list.as_ptr(), list.len(), chunk_len, out, out_len, to) }))
}

fn find(view: &[u8], segments: u64, position: u64) -> ezk_found {
    found(filled(|to| unsafe { via_find(view.as_ptr(), view.len(), segments, position, to) }))
}

fn tidy(list: &[u8], out: &mut [u8]) -> ezk_answer {
    let (out, out_len) = (out.as_mut_ptr(), out.len());
    answer(filled(|to| unsafe { via_tidy(list.as_ptr(), list.len(), out, out_len, to) }))
}

fn read_plan(
    list: &[u8],
    index: u64,
    chunk_len: u64,
    block_size: u64,
    start: u64,
    count: u64,
    out: &mut [u8],
) -> ezk_answer {
    let (list, len) = (list.as_ptr(), list.len());
    let (out, out_len) = (out.as_mut_ptr(), out.len());
    answer(filled(|to| unsafe {
        via_read_plan(list, len, index, chunk_len, block_size, start, count, out, out_len, to)
    }))
}

#[allow(clippy::too_many_arguments)] // these are the call's own inputs
fn file_plan(
    lists: &[u8],
    lengths: &[u64],
    first_index: u64,
    file_len: u64,
    block_size: u64,
    start: u64,
    count: u64,
    out: &mut [u8],
) -> ezk_file_answer {
    let (lists, lists_len) = (lists.as_ptr(), lists.len());
    let (row, rows) = (lengths.as_ptr(), lengths.len());
    let (out, out_len) = (out.as_mut_ptr(), out.len());
    let (first, end, size) = (first_index, file_len, block_size);
    let [refusal, place, index, count] = filled(|to| unsafe {
        via_file_plan(lists, lists_len, row, rows, first, end, size, start, count, out, out_len, to)
    });
    ezk_file_answer { refusal, place, index, count }
}

fn next_piece(
    list: &[u8],
    index: u64,
    chunk_len: u64,
    block_size: u64,
    start: u64,
    count: u64,
    at: u64,
) -> ezk_next {
    let (list, len) = (list.as_ptr(), list.len());
    next(filled(|to| unsafe {
        via_next_piece(list, len, index, chunk_len, block_size, start, count, at, to)
    }))
}

#[allow(clippy::too_many_arguments)] // these are the call's own inputs
fn next_file_piece(
    lists: &[u8],
    lengths: &[u64],
    first_index: u64,
    file_len: u64,
    block_size: u64,
    start: u64,
    count: u64,
    at: u64,
) -> ezk_file_next {
    let (lists, lists_len) = (lists.as_ptr(), lists.len());
    let (row, rows) = (lengths.as_ptr(), lengths.len());
    let (first, end, size) = (first_index, file_len, block_size);
    file_next(filled(|to| unsafe {
        via_next_file_piece(lists, lists_len, row, rows, first, end, size, start, count, at, to)
    }))
}

#[allow(clippy::too_many_arguments)] // these are the call's own inputs
fn judge_plan(
    lists: &[u8],
    lengths: &[u64],
    first_index: u64,
    file_len: u64,
    block_size: u64,
    start: u64,
    count: u64,
    plan: &[u8],
) -> ezk_judged {
    let (lists, lists_len) = (lists.as_ptr(), lists.len());
    let (row, rows) = (lengths.as_ptr(), lengths.len());
    let (first, end, size) = (first_index, file_len, block_size);
    let (plan, len) = (plan.as_ptr(), plan.len());
    judged(filled(|to| unsafe {
        via_judge_plan(lists, lists_len, row, rows, first, end, size, start, count, plan, len, to)
    }))
}

fn compact(
    list: &[u8],
    index: u64,
    block_size: u64,
    k: u64,
    new_id: u64,
    plan: &mut [u8],
    new_list: &mut [u8],
) -> ezk_compacted {
    let (list, len) = (list.as_ptr(), list.len());
    let (plan, plan_len) = (plan.as_mut_ptr(), plan.len());
    let (new, new_len) = (new_list.as_mut_ptr(), new_list.len());
    let [refusal, place, plan, list] = filled(|to| unsafe {
        via_compact(list, len, index, block_size, k, new_id, plan, plan_len, new, new_len, to)
    });
    ezk_compacted { refusal, place, plan, list }
}

fn added(older: &[u8], newer: &[u8]) -> ezk_part {
    let (newer, newer_len) = (newer.as_ptr(), newer.len());
    part(filled(|to| unsafe { via_added(older.as_ptr(), older.len(), newer, newer_len, to) }))
}

fn write_object_name(id: u64, block: u64, length: u64, out: &mut [u8]) -> ezk_answer {
    let (out, out_len) = (out.as_mut_ptr(), out.len());
    answer(filled(|to| unsafe { via_write_object_name(id, block, length, out, out_len, to) }))
}

fn write_full_name(volume: &[u8], id: u64, block: u64, length: u64, out: &mut [u8]) -> ezk_answer {
    let (volume, volume_len) = (volume.as_ptr(), volume.len());
    let (out, out_len) = (out.as_mut_ptr(), out.len());
    answer(filled(|to| unsafe {
        via_write_full_name(volume, volume_len, id, block, length, out, out_len, to)
    }))
}

fn read_object_name(name: &[u8]) -> ezk_object {
    object(filled(|to| unsafe { via_read_object_name(name.as_ptr(), name.len(), to) }))
}

fn read_full_name(name: &[u8]) -> ezk_object {
    object(filled(|to| unsafe { via_read_full_name(name.as_ptr(), name.len(), to) }))
}

fn write_redis_key(inode: u64, index: u64, out: &mut [u8]) -> ezk_answer {
    let (out, out_len) = (out.as_mut_ptr(), out.len());
    answer(filled(|to| unsafe { via_write_redis_key(inode, index, out, out_len, to) }))
}

fn write_tkv_key(inode: u64, index: u64, out: &mut [u8]) -> ezk_answer {
    let (out, out_len) = (out.as_mut_ptr(), out.len());
    answer(filled(|to| unsafe { via_write_tkv_key(inode, index, out, out_len, to) }))
}

fn read_redis_key(key: &[u8]) -> ezk_chunk_key {
    chunk_key(filled(|to| unsafe { via_read_redis_key(key.as_ptr(), key.len(), to) }))
}

fn read_tkv_key(key: &[u8]) -> ezk_chunk_key {
    chunk_key(filled(|to| unsafe { via_read_tkv_key(key.as_ptr(), key.len(), to) }))
}
