//! Null pointers with length 0, which C callers may pass. Only here are pointers passed
//! that no slice has.

use std::fmt::Debug;
use std::ptr::{null, null_mut};

use ezumokarin::sys::*;
use second::limits::RECORD;
use second::File;

use crate::expected::{across, answered, chunk_key, compacted, file_next, found, judged, next};
use crate::expected::{object, part};
use crate::tally::Tally;

const ORIGIN: &str = "null pointers";
const BLOCK: u64 = 65_536;

/// Safe because a call touches no byte of an input or buffer of length 0.
pub fn run(tally: &mut Tally) {
    files(tally);
    let (nil, out) = (null(), null_mut());
    unsafe {
        let got = ezk_check(nil, 0);
        same(tally, "check", got, answered(second::check(&[])));
        for chunk_len in [0, 5] {
            let got = ezk_view(nil, 0, chunk_len, out, 0);
            same(tally, "view", got, answered(second::view(&[], chunk_len, &mut [])));
            let got = ezk_read_plan(nil, 0, 7, chunk_len, BLOCK, 0, 9, out, 0);
            let want = second::read_plan(&[], 7, chunk_len, BLOCK, 0, 9, &mut []);
            same(tally, "read_plan", got, answered(want));
            let got = ezk_next_piece(nil, 0, 7, chunk_len, BLOCK, 0, 9, 2);
            let want = second::next_piece(&[], 7, chunk_len, BLOCK, 0, 9, 2);
            same(tally, "next_piece", got, next(want, 2));
        }
        for segments in [0, 1, u64::MAX] {
            let want = found(second::find(&[], segments, 0));
            same(tally, "find", ezk_find(nil, 0, segments, 0), want);
        }
        same(tally, "tidy", ezk_tidy(nil, 0, out, 0), answered(second::tidy(&[], &mut [])));
        let got = ezk_compact(nil, 0, 7, BLOCK, 0, 1, out, 0, out, 0);
        let want = second::compact(&[], 7, BLOCK, 0, 1, &mut [], &mut []);
        same(tally, "compact", got, compacted(want));
        let one = [0; RECORD];
        same(tally, "added", ezk_added(nil, 0, nil, 0), part(&[], &[]));
        same(tally, "added", ezk_added(nil, 0, one.as_ptr(), RECORD), part(&[], &one));
        same(tally, "added", ezk_added(one.as_ptr(), RECORD, nil, 0), part(&one, &[]));
        let got = ezk_write_object_name(1, 0, 1, out, 0);
        let want = second::write_object_name(1, 0, 1, &mut []);
        same(tally, "write_object_name", got, answered(want));
        let got = ezk_write_full_name(nil, 0, 1, 0, 1, out, 0);
        let want = second::write_full_name(&[], 1, 0, 1, &mut []);
        same(tally, "write_full_name", got, answered(want));
        let want = second::write_redis_key(1, 1, &mut []);
        same(tally, "write_redis_key", ezk_write_redis_key(1, 1, out, 0), answered(want));
        let want = second::write_tkv_key(1, 1, &mut []);
        same(tally, "write_tkv_key", ezk_write_tkv_key(1, 1, out, 0), answered(want));
        let want = object(second::read_object_name(&[]), b"");
        same(tally, "read_object_name", ezk_read_object_name(nil, 0), want);
        let want = object(second::read_full_name(&[]), b"");
        same(tally, "read_full_name", ezk_read_full_name(nil, 0), want);
        let want = chunk_key(second::read_redis_key(&[]));
        same(tally, "read_redis_key", ezk_read_redis_key(nil, 0), want);
        let want = chunk_key(second::read_tkv_key(&[]));
        same(tally, "read_tkv_key", ezk_read_tkv_key(nil, 0), want);
    }
}

/// Every call must have been made.
pub fn reach(tally: &mut Tally) {
    for call in tally.left_out(ORIGIN) {
        tally.difference(ORIGIN, &format!("none is a {call}"));
    }
}

/// The lengths are null where there are none.
fn files(tally: &mut Tally) {
    for (lengths, file_len) in
        [&[][..], &[0], &[0, 0], &[24]].map(|row| [(row, 0), (row, 9)]).concat()
    {
        let file = File { lists: &[], lengths, first_index: 0, file_len };
        let want = second::file_plan(&file, BLOCK, 0, 9, &mut []);
        let (nil, out, count) = (null(), null_mut(), lengths.len());
        let lengths = if count == 0 { null() } else { lengths.as_ptr() };
        let got =
            unsafe { ezk_file_plan(nil, 0, lengths, count, 0, file_len, BLOCK, 0, 9, out, 0) };
        same(tally, "file_plan", got, across(want));
        let want = second::next_file_piece(&file, BLOCK, 0, 9, 2);
        let got =
            unsafe { ezk_next_file_piece(nil, 0, lengths, count, 0, file_len, BLOCK, 0, 9, 2) };
        same(tally, "next_file_piece", got, file_next(want, 2));
        let want = second::judge(&file, BLOCK, 0, 9, &[]);
        let got =
            unsafe { ezk_judge_plan(nil, 0, lengths, count, 0, file_len, BLOCK, 0, 9, nil, 0) };
        same(tally, "judge_plan", got, judged(want));
    }
}

fn same<T: Debug + PartialEq>(tally: &mut Tally, call: &'static str, got: T, want: (u64, T)) {
    let (refusal, want) = want;
    tally.count(ORIGIN, call, refusal);
    if got != want {
        let what = format!("archive {got:?}, second program {want:?}");
        tally.difference(&format!("{call} with null pointers"), &what);
    }
}
