//! Lists and tidied lists at their limits, 2,048 records each, through the safe calls.

mod common;
use common::{apart, list, Row};
use ezumokarin::*;

const BLOCK: u64 = 65_536;

/// The view of `apart`: an uncovered byte before each record, and the rest of the chunk.
fn runs_apart(records: u32) -> Vec<u8> {
    let run = |byte: Row| [(byte.0 - 1, 0, 1, 0, 1), byte];
    let mut runs: Vec<Row> = apart(records).into_iter().flat_map(run).collect();
    let rest = CHUNK as u32 - 2 * records;
    runs.push((2 * records, 0, rest, 0, rest));
    list(&runs)
}

/// A slice under zeros at every second byte, and its tidied list: as many records as bytes.
fn comb(bytes: u32) -> (Vec<u8>, Vec<u8>) {
    let zeros = (0..bytes / 2).map(|i| (2 * i + 1, 0, 0, 0, 1));
    let rows: Vec<Row> = [(0, 7, bytes, 0, bytes)].into_iter().chain(zeros).collect();
    let run = |pos| if pos % 2 == 0 { (pos, 7, bytes, pos, 1) } else { (pos, 0, 0, 0, 1) };
    let tidied: Vec<Row> = (0..bytes).map(run).collect();
    (list(&rows), list(&tidied))
}

#[test]
fn tidied_list_of_2048_records() {
    let (list, tidied) = comb(2_048);
    let mut out = vec![0xee; 60_000];
    assert_eq!(tidy(&list, &mut out), Ok(49_152));
    assert_eq!(out[..49_152], tidied);
    assert!(out[49_152..].iter().all(|byte| *byte == 0xee));
    // As long as a list may be, it is tidied again, and stays.
    assert_eq!(tidy(&tidied, &mut out[..49_152]), Ok(49_152));
    assert_eq!(out[..49_152], tidied);
}

#[test]
fn tidied_list_of_2049_records() {
    let (list, tidied) = comb(2_049);
    let mut out = vec![0xee; 60_000];
    assert_eq!(tidy(&list, &mut out), Err(Refusal::TidiedRecords));
    assert_eq!(tidy(&list, &mut []), Err(Refusal::TidiedRecords));
    assert!(out.iter().all(|byte| *byte == 0xee));
    // The view has no such limit: it is the tidied list here.
    assert_eq!(view(&list, 2_049, &mut out), Ok(49_176));
    assert_eq!(out[..49_176], tidied);
}

#[test]
fn every_call_on_2048_records() {
    let (list, runs) = (list(&apart(2_048)), runs_apart(2_048));
    let (mut out, mut new_list) = (vec![0; 200_000], vec![0; 49_152]);
    assert_eq!(check(&list), Ok(2_048));
    assert_eq!(view(&list, CHUNK, &mut out), Ok(4_097 * Record::LEN));
    assert_eq!(out[..4_097 * Record::LEN], runs);
    assert_eq!(tidy(&list, &mut out), Ok(49_152));
    assert_eq!(out[..49_152], list);
    assert_eq!(read_plan(&list, 7, CHUNK, BLOCK, 0, CHUNK, &mut out), Ok(4_097 * Piece::LEN));
    // From the first to the last covered position: a piece less at each end.
    let all = Compacted { plan: 4_095 * Piece::LEN, list: Record::LEN };
    assert_eq!(compact(&list, 7, BLOCK, 2_048, 1, &mut out, &mut new_list), Ok(all));
    let none = Compacted { plan: 0, list: 49_152 };
    assert_eq!(compact(&list, 7, BLOCK, 0, 1, &mut out, &mut new_list), Ok(none));
    assert_eq!(new_list, list);
    let last = Added::Records(&list[49_128..]);
    assert_eq!(added(&list[..49_128], &list), Ok(last));
    assert_eq!(added(&list, &list[..49_128]), Ok(Added::Rewritten(&list[..49_128])));
}

#[test]
fn no_call_on_2049_records() {
    let list = list(&apart(2_049));
    let (mut out, mut new_list) = (vec![0xee; 200_000], vec![0xee; 60_000]);
    let refused = Err(Refusal::ListRecords);
    assert_eq!(check(&list), refused);
    assert_eq!(view(&list, CHUNK, &mut out), refused);
    assert_eq!(tidy(&list, &mut out), refused);
    assert_eq!(read_plan(&list, 7, CHUNK, BLOCK, 0, CHUNK, &mut out), refused);
    let compacted = compact(&list, 7, BLOCK, 2_049, 1, &mut out, &mut new_list);
    assert_eq!(compacted, Err(Refusal::ListRecords));
    assert_eq!(added(&list, &[]), Err(Refusal::ListRecords));
    assert_eq!(added(&[], &list), Err(Refusal::ListRecords));
    assert!(out.iter().chain(&new_list).all(|byte| *byte == 0xee));
}
