//! The cases of paper 01 that speak of lists, with the paper's values.

mod common;
use common::*;
use second::{check, view};

/// The view in a buffer of exactly the given room.
fn seen(list: &[u8], chunk_len: u64) -> Vec<Row> {
    let mut out = vec![0xee; 60_000];
    let count = view(list, chunk_len, &mut out).expect("an accepted list");
    assert!(out[count..].iter().all(|byte| *byte == 0xee));
    rows(&out[..count])
}

#[test]
fn empty_list_of_length_0_has_no_runs() {
    assert_eq!(view(&[], 0, &mut []), Ok(0));
}

#[test]
fn empty_list_of_length_5_is_one_uncovered_run() {
    assert_eq!(seen(&[], 5), [(0, 0, 5, 0, 5)]);
}

#[test]
fn bytes_must_make_whole_records() {
    assert_eq!(check(&[0; 24]), Ok(1));
    assert_eq!(check(&[0; 23]), Err(no(1)));
    assert_eq!(check(&[0; 25]), Err(no(1)));
}

#[test]
fn at_most_2048_records() {
    assert_eq!(check(&[0; 24_576]), Ok(1_024));
    assert_eq!(check(&[0; 24_600]), Ok(1_025));
    assert_eq!(check(&[0; 49_152]), Ok(2_048));
    assert_eq!(check(&[0; 49_176]), Err(no(2)));
    assert_eq!(check(&[0; 49_177]), Err(no(1)));
}

#[test]
fn zeros_may_reach_the_end_of_the_chunk_only() {
    assert_eq!(check(&list(&[(67_108_863, 0, 0, 0, 1)])), Ok(1));
    assert_eq!(check(&list(&[(67_108_863, 0, 0, 0, 2)])), Err(no_at(3, 0)));
}

#[test]
fn bytes_must_lie_in_their_slice() {
    assert_eq!(check(&list(&[(0, 7, 10, 4, 6)])), Ok(1));
    assert_eq!(check(&list(&[(0, 7, 10, 4, 7)])), Err(no_at(6, 0)));
}

#[test]
fn zeros_hide_eight_bytes_of_a_slice() {
    let list = list(&[(0, 7, 20, 0, 20), (4, 0, 0, 0, 8)]);
    assert_eq!(seen(&list, 20), [(0, 7, 20, 0, 4), (4, 0, 0, 0, 8), (12, 7, 20, 12, 8)]);
}

#[test]
fn list_of_000_prints_the_paper_table() {
    let table = "pos id size off len
0 0 10485760 0 10485760
10485760 10 31457280 0 6291456
16777216 12 10485760 0 10485760
27262976 11 16777216 6291456 10485760
37748736 10 31457280 27262976 4194304
41943040 0 25165824 0 25165824
";
    let mut text = String::from("pos id size off len\n");
    for (pos, id, size, off, len) in seen(&list_of_000(), CHUNK) {
        text += &format!("{pos} {id} {size} {off} {len}\n");
    }
    assert_eq!(text, table);
}

#[test]
fn view_is_the_new_list_of_000() {
    assert_eq!(seen(&list_of_000(), CHUNK), view_of_000());
}
