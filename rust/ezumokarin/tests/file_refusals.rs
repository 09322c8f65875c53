//! Refusals of a read across chunks, and which list is told.

mod common;

use common::{list, Row};
use ezumokarin::{file_plan, ListRefusal, Piece, Refusal};

const BLOCK: u64 = 65_536;
const GOOD: Row = (0, 7, 10, 4, 6);
const BAD: Row = (0, 7, 10, 4, 7);
/// The first index past 32 bits.
const PAST: u64 = 1 << 32;

/// The refusal of a read of one byte, in a buffer that keeps its bytes.
fn refused(lists: &[u8], lengths: &[u64], first_index: u64, block_size: u64) -> ListRefusal {
    let mut out = [0xee; Piece::LEN - 1];
    let answer = file_plan(lists, lengths, first_index, u64::MAX, block_size, 0, 1, &mut out);
    assert_eq!(out, [0xee; Piece::LEN - 1]);
    answer.expect_err("a refusal")
}

fn of_none(refusal: Refusal) -> ListRefusal {
    ListRefusal { refusal, index: None }
}

fn of_list(index: u64, refusal: Refusal) -> ListRefusal {
    ListRefusal { refusal, index: Some(index) }
}

#[test]
fn numbers_of_lists_lengths_and_indexes() {
    let lists = of_none(Refusal::ChunkLists);
    assert_eq!(refused(&[], &[], 0, BLOCK), lists);
    assert_eq!(refused(&[], &[0; 17], 0, BLOCK), lists);
    assert_eq!(refused(&[0; 24], &[23], 0, BLOCK), lists);
    assert_eq!(refused(&[0; 24], &[24, 24], 0, BLOCK), lists);
    assert_eq!(refused(&[], &[1 << 63, 1 << 63], 0, BLOCK), lists);
    assert_eq!(refused(&[], &[0], PAST, BLOCK), lists);
    assert_eq!(refused(&[], &[0, 0], PAST - 1, BLOCK), lists);
    assert_eq!(refused(&[], &[0, 0], u64::MAX, BLOCK), lists);
    // What is allowed comes as far as the buffer.
    assert_eq!(refused(&[], &[0; 16], PAST - 16, BLOCK), of_none(Refusal::Buffer));
}

#[test]
fn first_refused_list_is_told() {
    let (good, bad) = (list(&[GOOD, GOOD]), list(&[GOOD, BAD]));
    let told = |lists: [&Vec<u8>; 2]| {
        refused(&lists.map(Vec::as_slice).concat(), &lists.map(|list| list.len() as u64), 5, BLOCK)
    };
    assert_eq!(told([&bad, &bad]), of_list(5, Refusal::SliceEnd { place: 1 }));
    assert_eq!(told([&good, &bad]), of_list(6, Refusal::SliceEnd { place: 1 }));
    let sizes = list(&[GOOD, GOOD, (0, 7, 11, 0, 1)]);
    assert_eq!(told([&sizes, &bad]), of_list(5, Refusal::TwoSizes { place: 2 }));
    assert_eq!(told([&good, &vec![0; 25]]), of_list(6, Refusal::ListLength));
    assert_eq!(told([&vec![0; 2_049 * 24], &vec![0; 25]]), of_list(5, Refusal::ListRecords));
    // A slice may have another size in another list.
    assert_eq!(told([&good, &list(&[(0, 7, 11, 0, 1)])]), of_none(Refusal::Buffer));
}

/// Chunk 0 is told too.
#[test]
fn index_0() {
    assert_eq!(refused(&[0; 1], &[1], 0, BLOCK), of_list(0, Refusal::ListLength));
}

#[test]
fn order() {
    assert_eq!(refused(&[0; 1], &[1], PAST, 0), of_none(Refusal::ChunkLists));
    assert_eq!(refused(&[0; 1], &[1], PAST - 1, 0), of_none(Refusal::BlockSize));
    assert_eq!(refused(&[0; 1], &[1], PAST - 1, BLOCK), of_list(PAST - 1, Refusal::ListLength));
    assert_eq!(refused(&[], &[0], PAST - 1, BLOCK), of_none(Refusal::Buffer));
}

#[test]
fn words() {
    let told = of_list(6, Refusal::SliceEnd { place: 1 });
    let words = "list of chunk 6: record 1: id not 0 and off + len above size";
    assert_eq!(told.to_string(), words);
    let words = "another number of lists than 1 to 16, lengths that don't add up to the bytes \
                 lent, or an index past 32 bits";
    assert_eq!(of_none(Refusal::ChunkLists).to_string(), words);
    assert_eq!((Refusal::ChunkLists.number(), Refusal::ChunkLists.place()), (21, None));
    let error: Box<dyn std::error::Error> = told.into();
    assert_eq!(error.to_string(), told.to_string());
}
