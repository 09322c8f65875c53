//! Zero records with a size, and views fed back as lists, through the safe calls.

mod common;
use common::{apart, lines, list, list_in_mib, list_of_000, Row};
use ezumokarin::*;

const BLOCK: u64 = 65_536;

fn rows(bytes: &[u8]) -> Vec<Row> {
    records(bytes).map(|r| (r.pos, r.id, r.size, r.off, r.len)).collect()
}

fn viewed(list: &[u8], chunk_len: u64) -> Vec<u8> {
    let mut out = vec![0; 100_000];
    let count = view(list, chunk_len, &mut out).expect("a view");
    out.truncate(count);
    out
}

fn tidied(list: &[u8]) -> Vec<u8> {
    let mut out = vec![0; 50_000];
    let count = tidy(list, &mut out).expect("a tidied list");
    out.truncate(count);
    out
}

#[test]
fn zeros_have_size_0_or_len_and_off_0() {
    let checked = |size, off| check(&list(&[(4, 0, size, off, 8)]));
    let refused = Err(Refusal::ZeroRecord { place: 0 });
    assert_eq!(checked(0, 0), Ok(1));
    assert_eq!(checked(8, 0), Ok(1));
    for (size, off) in [(1, 0), (7, 0), (9, 0), (16, 0), (0, 1), (8, 1), (0, 8), (8, u32::MAX)] {
        assert_eq!(checked(size, off), refused, "size {size}, off {off}");
    }
    assert_eq!(checked(CHUNK as u32 + 1, 0), Err(Refusal::SliceSize { place: 0 }));
    let whole = (0, 0, CHUNK as u32, 0, CHUNK as u32);
    assert_eq!(check(&list(&[whole])), Ok(1));
}

/// Every call takes such a record for zeros; compaction keeps those that remain as they are.
#[test]
fn zeros_with_a_size_are_zeros() {
    let slice = (0, 7, 20, 0, 20);
    let sized = list(&[slice, (4, 0, 8, 0, 8)]);
    let runs = [(0, 7, 20, 0, 4), (4, 0, 0, 0, 8), (12, 7, 20, 12, 8)];
    assert_eq!(rows(&viewed(&sized, 20)), runs);
    assert_eq!(rows(&tidied(&sized)), runs);
    let mut plan = [0; 3 * Piece::LEN];
    assert_eq!(read_plan(&sized, 0, 20, BLOCK, 0, 20, &mut plan), Ok(plan.len()));
    assert_eq!(lines(&plan), "RB 0 0 7 0 20 0 4\nRZ 0 4 0 0 0 0 8\nRB 0 12 7 0 20 12 8\n");
    let (mut plan, mut new_list) = ([0; Piece::LEN], [0; 2 * Record::LEN]);
    let counts = Compacted { plan: plan.len(), list: new_list.len() };
    assert_eq!(compact(&sized, 0, BLOCK, 1, 9, &mut plan, &mut new_list), Ok(counts));
    assert_eq!(rows(&new_list), [(0, 9, 20, 0, 20), (4, 0, 8, 0, 8)]);
}

/// The new list that 000 prints has id 0 and a size where nothing is covered.
#[test]
fn new_list_of_000_is_a_list() {
    let slices =
        [(10, 10, 30, 0, 6), (16, 12, 10, 0, 10), (26, 11, 16, 6, 10), (36, 10, 30, 26, 4)];
    let with = |first: Row, last: Row| list_in_mib(&[&[first], &slices[..], &[last]].concat());
    let printed = with((0, 0, 10, 0, 10), (40, 0, 24, 0, 24));
    assert_eq!(viewed(&list_of_000(), CHUNK), printed);
    assert_eq!(check(&printed), Ok(6));
    let zeros = with((0, 0, 0, 0, 10), (40, 0, 0, 0, 24));
    assert_eq!(viewed(&printed, CHUNK), zeros);
    assert_eq!(tidied(&printed), zeros);
    assert_eq!(tidied(&list_of_000()), list_in_mib(&slices));
}

#[test]
fn view_is_accepted_or_refused_with_2() {
    let half = list(&apart(1_024));
    assert_eq!(check(&viewed(&half, 2_048)), Ok(2_048));
    assert_eq!(check(&viewed(&half, 2_049)), Err(Refusal::ListRecords));
    assert_eq!(check(&viewed(&list(&apart(2_048)), CHUNK)), Err(Refusal::ListRecords));
    assert_eq!(check(&viewed(&[], 0)), Ok(0));
}

#[test]
fn view_has_the_plan_of_its_list() {
    let list = list(&apart(1_000));
    let again = viewed(&list, 2_000);
    let plan = |list: &[u8], chunk_len| {
        let mut out = vec![0; 2_001 * Piece::LEN];
        let count = read_plan(list, 0, chunk_len, BLOCK, 3, CHUNK, &mut out).expect("a plan");
        out.truncate(count);
        out
    };
    assert_eq!(plan(&again, 2_000), plan(&list, 2_000));
    assert_eq!(plan(&again, 999), plan(&list, 999));
    // Past its chunk length a view covers nothing.
    let short = viewed(&list, 999);
    assert_eq!(plan(&short, 999), plan(&list, 999));
    assert_ne!(plan(&short, 1_001), plan(&list, 1_001));
}
