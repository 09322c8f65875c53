//! The programs that the archive is timed against must be right themselves.

mod files;
mod judged;
mod next;
mod pairs;
mod texts;

use rng::Rng;

use crate::library::find;
use crate::record::{Record, CHUNK, LIST_RECORDS, PIECE, RECORD};
use crate::shapes::SHAPES;
use crate::yard::check::{checked, passed};
use crate::yard::compact::{compact, Order};
use crate::yard::plan::read_plan;
use crate::yard::view::{tidy, view};
use crate::yard::{most_pieces, plain, seek, tree, walk, Room};

const BLOCKS: [u32; 2] = [65_536, 4_194_304];
const INDEX: u32 = 4_294_967_295;
const MARK: u8 = 0xaa;

/// Few records in little room, about the edge of a block.
fn list(rng: &mut Rng) -> Vec<u8> {
    (0..rng.below(9)).flat_map(|_| record(rng).to_bytes()).collect()
}

fn record(rng: &mut Rng) -> Record {
    let pos = 65_500 + rng.below(80) as u32;
    let len = rng.below(30) as u32;
    let id = rng.below(3);
    let size = 131_071 + id as u32;
    if id == 0 {
        return Record { pos, id, size: rng.pick(&[0, len]), off: 0, len };
    }
    // Slice 1 lies at its own offsets, so that its parts join again.
    let off = if id == 1 { pos } else { rng.below(70_000) as u32 };
    Record { pos, id, size, off, len }
}

/// Short lists whose records meet and join, and lists of all shapes.
fn lists() -> Vec<Vec<u8>> {
    let mut rng = Rng::new(1);
    let short = (0..1_000).map(|_| list(&mut rng));
    let sizes = [1, 2, 3, 4, 7, 10, 47, 48, 63, 64, 65, 200, 300];
    let shaped = SHAPES.iter().flat_map(|shape| sizes.map(|n| shape.lists(n, 1).remove(0)));
    short.chain(shaped).collect()
}

/// What is written, into a buffer with room to spare; one that just fits must do, and one that is
/// a byte too short must be left alone.
fn filled(mut write: impl FnMut(&mut [u8]) -> Option<usize>) -> Vec<u8> {
    let mut out = vec![MARK; most_pieces(LIST_RECORDS, BLOCKS[0]) * PIECE];
    let count = write(&mut out).expect("an answer");
    assert!(out[count..].iter().all(|byte| *byte == MARK));
    out.truncate(count);
    let mut fitting = vec![MARK; count];
    assert_eq!(write(&mut fitting), Some(count));
    assert_eq!(fitting, out);
    let mut short = vec![MARK; count.saturating_sub(1)];
    assert!(count == 0 || write(&mut short).is_none());
    assert!(short.iter().all(|byte| *byte == MARK));
    out
}

#[test]
fn shapes_have_lists_of_any_length() {
    for shape in &SHAPES {
        for records in (1..=100).chain([2_000, LIST_RECORDS]) {
            for list in shape.lists(records, 2) {
                assert_eq!(second::check(&list), Ok(records), "{}, {records}", shape.name);
            }
        }
    }
}

#[test]
fn views_are_those_of_the_second_program() {
    let mut room = Room::new();
    for list in lists() {
        let expected = second::view_bytes(&list, CHUNK.into()).expect("a view");
        for view in [view, plain::view, tree::view, walk::view] {
            assert_eq!(filled(|out| view(&list, &mut room, out)), expected);
        }
    }
}

#[test]
fn tidied_lists_are_those_of_the_second_program() {
    let mut room = Room::new();
    for list in lists() {
        let expected = second::tidy_bytes(&list).expect("a list");
        assert_eq!(filled(|out| tidy(&list, &mut room, out)), expected);
    }
}

/// One run fewer, and the tidied list is short enough.
#[test]
fn tidied_lists_that_are_too_long_are_refused() {
    let mut room = Room::new();
    for records in [1_024, 1_025] {
        let whole = Record { pos: 0, id: 1, size: CHUNK, off: 0, len: CHUNK };
        let over = |i: u32| Record { pos: 2 * i, id: 2, size: CHUNK, off: i, len: 1 };
        let front = (1..records).flat_map(|i| over(i).to_bytes());
        let list: Vec<u8> = whole.to_bytes().into_iter().chain(front).collect();
        let mut out = vec![MARK; 3 * LIST_RECORDS * RECORD];
        let expected = second::tidy_bytes(&list).ok().map(|bytes| bytes.len());
        assert_eq!(tidy(&list, &mut room, &mut out), expected);
        assert_eq!(expected.is_some(), records == 1_024);
    }
}

#[test]
fn plans_are_those_of_the_second_program() {
    let mut room = Room::new();
    let chunk = u64::from(CHUNK);
    for list in lists() {
        for size in BLOCKS {
            let expected =
                second::read_plan_bytes(&list, INDEX.into(), chunk, size.into(), 0, chunk);
            assert_eq!(Ok(filled(|out| read_plan(&list, INDEX, size, &mut room, out))), expected);
        }
    }
    assert_eq!(read_plan(&[], INDEX, 65_537, &mut room, &mut []), None);
}

#[test]
fn compactions_are_those_of_the_second_program() {
    let mut rng = Rng::new(2);
    let mut room = Room::new();
    for list in lists() {
        let records = list.len() / RECORD;
        let some = rng.below(records as u64 + 1) as usize;
        let k = rng.pick(&[records, some]);
        for block_size in BLOCKS {
            let order = Order { index: INDEX, block_size, k, new_id: 9 };
            let (plan, new) =
                second::compact_bytes(&list, INDEX.into(), block_size.into(), k as u64, 9).unwrap();
            let mut other = vec![MARK; new.len()];
            let by_rust = filled(|out| {
                let (pieces, bytes) = compact(&list, order, &mut room, out, &mut other)?;
                assert_eq!(bytes, new.len());
                Some(pieces)
            });
            assert_eq!((by_rust, other), (plan, new));
        }
        let order = Order { index: INDEX, block_size: BLOCKS[0], k: records + 1, new_id: 9 };
        assert_eq!(compact(&list, order, &mut room, &mut [], &mut []), None);
    }
}

/// Fields at a few edges: some of these records are sound, and some are not.
fn any_record(rng: &mut Rng) -> [u8; RECORD] {
    let edges = [0, 0, 8, 8, 9, CHUNK, CHUNK + 1];
    let mut edge = || rng.pick(&edges);
    let (pos, size, off, len) = (edge(), edge(), edge(), edge());
    Record { pos, id: u64::from(edge() % 2), size, off, len }.to_bytes()
}

#[test]
fn lists_are_accepted_as_by_the_second_program() {
    let mut rng = Rng::new(4);
    let mut sizes = Room::new().sizes;
    let mut accepted = 0;
    for _ in 0..10_000 {
        let list = any_record(&mut rng);
        let passes = checked(&list, &mut sizes).is_some();
        assert_eq!(passes, second::check(&list).is_ok(), "{list:?}");
        assert_eq!(passes, passed(&list).is_some());
        accepted += u32::from(passes);
    }
    assert!((1_000..9_000).contains(&accepted));
}

/// Lists of few slices, some of which have two sizes.
#[test]
fn sizes_are_accepted_as_by_the_second_program() {
    let mut rng = Rng::new(5);
    let mut sizes = Room::new().sizes;
    let mut accepted = 0;
    for _ in 0..10_000 {
        let slices = 1 + rng.below(40);
        let slice = |rng: &mut Rng| {
            let size = 200_000 + rng.below(40) as u32 / 39;
            Record { id: rng.below(slices) << 50, size, pos: 0, off: 0, len: 0 }
        };
        let one = |rng: &mut Rng| match slice(rng) {
            zeros @ Record { id: 0, .. } => Record { size: 0, ..zeros },
            other => other,
        };
        let list: Vec<u8> = (0..rng.below(40)).flat_map(|_| one(&mut rng).to_bytes()).collect();
        let passes = checked(&list, &mut sizes).is_some();
        assert_eq!(passes, second::check(&list).is_ok(), "{list:?}");
        accepted += u32::from(passes);
    }
    assert!((1_000..9_000).contains(&accepted));
}

/// The segment that holds a position, each looked at.
fn held(row: &[Record], position: u32) -> seek::Found {
    let holds = |r: &Record| r.pos <= position && position - r.pos < r.len;
    row.iter().copied().enumerate().find(|(_, segment)| holds(segment))
}

#[test]
fn seeking_finds_what_holds_the_position() {
    for list in lists() {
        let view = second::view_bytes(&list, u64::from(CHUNK) - 1).expect("a view");
        let row = seek::row(&view);
        let edges = row.iter().flat_map(|r| [r.pos, r.pos + r.len / 2, r.pos + r.len - 1]);
        for position in edges.chain([CHUNK - 1, CHUNK, u32::MAX]) {
            let found = held(&row, position);
            assert_eq!(found.is_some(), position < CHUNK - 1);
            assert_eq!(seek::walk(&view, position), found);
            assert_eq!(seek::halve(&row, position), found);
            assert_eq!(find(&view, position), found);
        }
    }
}
