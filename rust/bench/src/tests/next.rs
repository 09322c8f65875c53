//! Pieces one at a time.

use rng::Rng;

use super::{lists, BLOCKS};
use crate::pieces::{self, bytes, Next, INDEX};
use crate::record::{CHUNK, PIECE};
use crate::shapes::SHAPES;
use crate::yard::next::{joined, next_piece};
use crate::yard::Room;
use crate::zeros::{zeros, TURNS};

const WHOLE: u64 = CHUNK as u64;

/// The second program's answer, or where the read is finished.
fn expected(list: &[u8], block_size: u32, at: u32) -> Option<([u8; PIECE], u64)> {
    let (index, block) = (INDEX.into(), block_size.into());
    let next = second::next_piece(list, index, WHOLE, block, 0, WHOLE, at.into());
    next.expect("an accepted list").map(|next| (next.piece.to_bytes(), next.next))
}

fn given(piece: Next) -> Option<([u8; PIECE], u64)> {
    assert_eq!((piece.refusal, piece.place), (0, 0));
    (piece.finished == 0).then(|| (bytes(&piece), piece.next))
}

#[test]
fn the_next_piece_is_that_of_the_second_program() {
    let mut rng = Rng::new(6);
    let mut room = Room::new();
    for list in lists() {
        let places = [0, 65_500 + rng.below(120) as u32, rng.below(WHOLE) as u32, CHUNK - 1, CHUNK];
        for (at, block_size) in places.into_iter().zip(BLOCKS.into_iter().cycle()) {
            let piece = next_piece(&list, INDEX, block_size, at, &mut room);
            assert_eq!(piece, Some(pieces::next_piece(&list, block_size, at)));
            assert_eq!(piece.and_then(given), expected(&list, block_size, at));
        }
    }
    assert_eq!(next_piece(&[], INDEX, 65_537, 0, &mut room), None);
    assert_eq!(next_piece(&[0], INDEX, 65_536, 0, &mut room), None);
}

#[test]
fn all_pieces_are_the_second_programs_plan() {
    for list in lists() {
        let (index, block) = (INDEX.into(), BLOCKS[1].into());
        let plan = second::read_plan_bytes(&list, index, WHOLE, block, 0, WHOLE);
        let mut all = Vec::new();
        let count = pieces::one_by_one(&list, BLOCKS[1], |piece| all.extend(bytes(piece)));
        assert_eq!(count, Some(all.len() / PIECE));
        assert_eq!(Ok(all), plan);
    }
    assert_eq!(pieces::one_by_one(&[0], BLOCKS[1], |_| {}), None);
}

#[test]
fn zeros_and_holes_are_one_piece() {
    for turn in TURNS {
        for records in [1, 2, 10, 200, 2_000] {
            for list in zeros(turn, records, 2) {
                assert_eq!(second::check(&list), Ok(records));
                let (piece, next) = expected(&list, BLOCKS[0], 0).expect("a piece");
                assert_eq!((&piece[..2], next), (&b"RZ"[..], WHOLE));
                assert!(joined(&list, BLOCKS[0], 0));
            }
        }
    }
}

/// Slices of their own join nothing.
#[test]
fn a_sequential_list_joins_nothing() {
    let [_, sequential, ..] = &SHAPES;
    let mut rng = Rng::new(7);
    for records in [1, 10, 200, 2_000] {
        for list in sequential.lists(records, 1) {
            assert!((0..100).all(|_| !joined(&list, BLOCKS[1], rng.below(WHOLE) as u32)));
        }
    }
}
