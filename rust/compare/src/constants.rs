//! The header's constants, by name, against the second program: a refusal's number is the one
//! that the second program gives in the case that the name stands for. Some are the Rust crate's too.

use std::ffi::{c_char, CStr};

use ezumokarin::sys;
use second::limits::{CHUNK, FILE_LISTS, INDEX_MAX, LIST_RECORDS, PIECE, RECORD};
use second::limits::{TIDIED_RECORDS, TKV_KEY};
use second::{Judged, Record, Refusal, Wrong};

use crate::expected::judged;
use crate::lists::combed;
use crate::tally::Tally;

const BLOCK: u64 = 65_536;

extern "C" {
    /// The name of a constant, a C string, and its value; null behind the last one.
    fn via_constant(which: usize, value: *mut u64) -> *const c_char;
}

pub fn run(tally: &mut Tally) {
    let found = in_header();
    let expected = [sizes(), of_lists(), of_calls(), verdicts()].concat();
    if found.len() != expected.len() {
        tally.difference("the header's constants", &format!("{} of them", found.len()));
    }
    same(tally, &found, "second program", expected);
    same(tally, &found, "Rust crate", of_crate());
}

/// Each of these has in the header the value that it has there.
fn same(
    tally: &mut Tally,
    found: &[(String, u64)],
    there: &str,
    expected: Vec<(&'static str, u64)>,
) {
    for (name, want) in expected {
        let got = found.iter().find(|constant| constant.0 == name).map(|constant| constant.1);
        if got != Some(want) {
            let what = format!("header {got:?}, {there} {want}");
            tally.difference(&format!("the header's constant {name}"), &what);
        }
    }
}

fn in_header() -> Vec<(String, u64)> {
    (0..).map_while(constant).collect()
}

/// Safe because the C code writes one value, and a name lives as long as the program.
fn constant(which: usize) -> Option<(String, u64)> {
    let mut value = 0;
    let name = unsafe { via_constant(which, &mut value) };
    if name.is_null() {
        return None;
    }
    let name = unsafe { CStr::from_ptr(name) };
    Some((name.to_string_lossy().into_owned(), value))
}

fn sizes() -> Vec<(&'static str, u64)> {
    vec![
        ("EZK_DONE", number(second::check(&[]))),
        ("EZK_CHUNK", CHUNK),
        ("EZK_RECORD", RECORD as u64),
        ("EZK_PIECE", PIECE as u64),
        ("EZK_TKV_KEY", TKV_KEY as u64),
        ("EZK_LISTS", FILE_LISTS as u64),
    ]
}

fn of_lists() -> Vec<(&'static str, u64)> {
    let one = |pos, id, size, off, len| {
        number(second::check(&Record::new(pos, id, size, off, len).to_bytes()))
    };
    vec![
        ("EZK_LIST_LENGTH", number(second::check(&[0; RECORD - 1]))),
        ("EZK_LIST_RECORDS", number(second::check(&[0; (LIST_RECORDS + 1) * RECORD]))),
        ("EZK_RECORD_END", one(CHUNK, 0, 0, 0, 1)),
        ("EZK_SLICE_SIZE", one(0, 7, CHUNK + 1, 0, 1)),
        ("EZK_ZERO_RECORD", one(0, 0, 1, 0, 8)),
        ("EZK_SLICE_END", one(0, 7, 10, 4, 7)),
        ("EZK_TWO_SIZES", number(second::check(&two_sizes()))),
    ]
}

fn two_sizes() -> Vec<u8> {
    [10, 11].iter().flat_map(|size| Record::new(0, 7, *size, 0, 1).to_bytes()).collect()
}

fn of_calls() -> Vec<(&'static str, u64)> {
    vec![
        ("EZK_CHUNK_LENGTH", number(second::view_bytes(&[], CHUNK + 1))),
        ("EZK_BLOCK_SIZE", number(second::read_plan_bytes(&[], 0, 0, BLOCK + 1, 0, 0))),
        ("EZK_NEW_ID", number(second::compact_bytes(&[], 0, BLOCK, 0, 0))),
        ("EZK_FIRST_RECORDS", number(second::compact_bytes(&[], 0, BLOCK, 1, 1))),
        ("EZK_TIDIED_RECORDS", number(second::tidy_bytes(&comb()))),
        ("EZK_BUFFER", number(second::view(&[], 1, &mut []))),
        ("EZK_CHUNK_LISTS", number(second::read_plan_bytes(&[], INDEX_MAX + 1, 0, BLOCK, 0, 0))),
        ("EZK_FORM", number(second::read_redis_key(&[]))),
    ]
}

fn verdicts() -> Vec<(&'static str, u64)> {
    let verdict = |said| judged(Ok(said)).1.verdict;
    let wrong_piece = Judged::WrongPiece { number: 0, why: Wrong::Mark };
    let wrong_byte = Judged::WrongByte { place: 0, pieces: 0 };
    vec![
        ("EZK_ACCEPTED", verdict(Judged::Accepted)),
        ("EZK_WRONG_PIECE", verdict(wrong_piece)),
        ("EZK_WRONG_BYTE", verdict(wrong_byte)),
    ]
}

/// Those that the Rust crate names.
fn of_crate() -> Vec<(&'static str, u64)> {
    vec![
        ("EZK_ACCEPTED", sys::EZK_ACCEPTED),
        ("EZK_WRONG_PIECE", sys::EZK_WRONG_PIECE),
        ("EZK_WRONG_BYTE", sys::EZK_WRONG_BYTE),
    ]
}

/// A list that is tidied to one record too many.
fn comb() -> Vec<u8> {
    combed(7, TIDIED_RECORDS as u64 + 1).iter().flat_map(Record::to_bytes).collect()
}

/// 0 for an answer.
fn number<T>(answer: Result<T, Refusal>) -> u64 {
    answer.map_or_else(|refusal| refusal.number, |_| 0)
}
