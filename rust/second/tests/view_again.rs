//! Zero records with a size, as a view has them for its holes, and views fed back as lists.

mod common;
use common::random::*;
use common::*;
use rng::Rng;
use second::store::Store;
use second::{check, read_plan_bytes, records, source_at, tidy_bytes, view_bytes, Source};

#[test]
fn zero_record_with_a_size_is_zeros() {
    let without = list(&[(0, 7, 20, 0, 20), (4, 0, 0, 0, 8)]);
    let with = list(&[(0, 7, 20, 0, 20), (4, 0, 8, 0, 8)]);
    let runs = [(0, 7, 20, 0, 4), (4, 0, 0, 0, 8), (12, 7, 20, 12, 8)];
    for list in [&without, &with] {
        assert_eq!(rows(&view_bytes(list, 20).expect("a view")), runs);
        assert_eq!(rows(&tidy_bytes(list).expect("a tidied list")), runs);
    }
}

/// 000 prints its view with id 0 and a size where nothing is covered.
#[test]
fn view_of_000_fed_back() {
    let printed = view_of_000();
    let mut zeros = printed;
    zeros[0].2 = 0;
    zeros[5].2 = 0;
    assert_eq!(check(&list(&printed)), Ok(6));
    assert_eq!(rows(&view_bytes(&list(&printed), CHUNK).expect("a view")), zeros);
    assert_eq!(rows(&tidy_bytes(&list(&printed)).expect("a tidied list")), zeros);
    assert_eq!(rows(&tidy_bytes(&list_of_000()).expect("a tidied list")), printed[1..5]);
}

/// Single bytes of slices, each behind an uncovered one.
fn apart(bytes: u64) -> Vec<u8> {
    let rows: Vec<Row> = (0..bytes).map(|i| (2 * i + 1, 7 + i, 1, 0, 1)).collect();
    list(&rows)
}

#[test]
fn view_fed_back_may_be_too_long() {
    let again = |list: &[u8], l| check(&view_bytes(list, l).expect("a view"));
    assert_eq!(again(&apart(1_024), 2_048), Ok(2_048));
    assert_eq!(again(&apart(1_024), 2_049), Err(no(2)));
    assert_eq!(again(&apart(2_048), CHUNK), Err(no(2)));
}

#[test]
fn view_fed_back_reads_alike_and_holes_are_zeros() {
    let mut random = Rng::new(7);
    for round in 0..300 {
        let (list, l) = (some_list(&mut random, 8, 4), random.below(END));
        let again = view_bytes(&list, l).expect("a view");
        let (old, new) = (records(&list).expect("a list"), records(&again).expect("a list"));
        let store = Store::new(round);
        let read = |records, p| store.read(records, BLOCK_SIZE, p);
        for p in positions(&[&old, &new], &mut random) {
            let expected = match source_at(&old, p) {
                _ if p >= l => Source::Nothing,
                Source::Nothing => Source::Zero,
                source => source,
            };
            assert_eq!(source_at(&new, p), expected, "position {p} of {l}");
            assert!(p >= l || read(&new, p) == read(&old, p), "position {p} of {l}");
        }
        let plan = |list| read_plan_bytes(list, 0, l, BLOCK_SIZE, 0, CHUNK).expect("a plan");
        assert_eq!(plan(&again), plan(&list));
    }
}

/// Laid over an older list, a view hides what its list leaves open, and the tidied list does not.
#[test]
fn view_hides_what_its_holes_left_open() {
    let older = list(&[(0, 9, 8, 0, 8)]);
    let newer = list(&[(4, 10, 2, 0, 2)]);
    let seen = |upper: &[u8]| {
        let list = [&older, upper].concat();
        rows(&view_bytes(&list, 8).expect("a view"))
    };
    let open = [(0, 9, 8, 0, 4), (4, 10, 2, 0, 2), (6, 9, 8, 6, 2)];
    assert_eq!(seen(&newer), open);
    assert_eq!(seen(&tidy_bytes(&newer).expect("a tidied list")), open);
    let hidden = [(0, 0, 0, 0, 4), (4, 10, 2, 0, 2), (6, 0, 0, 0, 2)];
    assert_eq!(seen(&view_bytes(&newer, 8).expect("a view")), hidden);
}
