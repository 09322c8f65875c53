//! Pieces one at a time: every read that is planned in the other cases, at places about its first
//! piece and its end; and in two plans at every edge.

use second::limits::CHUNK;

use super::{list, three, BLOCK, MIB};
use crate::call::{Call, Room};
use crate::joined::Joined;
use crate::places::{asked, end, pieces};

/// Of planned reads, these calls for their pieces.
pub fn of(planned: &[Call]) -> Vec<Call> {
    let mut calls: Vec<Call> = planned.iter().flat_map(about_its_ends).collect();
    calls.extend(planned_here().iter().flat_map(at_every_edge));
    calls
}

fn about_its_ends(planned: &Call) -> Vec<Call> {
    let pieces = pieces(planned).unwrap_or_default();
    let middle = pieces.first().map_or(1, |first| first.len / 2);
    let end = end(&pieces);
    let mut places = vec![0, middle, end.saturating_sub(1), end, end + 1, u64::MAX];
    places.sort_unstable();
    places.dedup();
    places.into_iter().filter_map(|at| asked(planned, at)).collect()
}

/// The first byte of each piece, and those beside it; with some starts these places would wrap.
fn at_every_edge(planned: &Call) -> Vec<Call> {
    let pieces = pieces(planned).unwrap_or_default();
    let edges = pieces
        .iter()
        .flat_map(|piece| [piece.place.saturating_sub(1), piece.place, piece.place + 1]);
    let far = [1 << 32, CHUNK.wrapping_neg(), MIB.wrapping_neg(), u64::MAX];
    edges.chain(far).filter_map(|at| asked(planned, at)).collect()
}

/// Document 000's list, alone and three times; what joins; and one slice and zeros over the edges
/// of chunks.
fn planned_here() -> Vec<Call> {
    let zeros = list(&[(4, 0, 0, 0, 8), (15, 0, 5, 0, 5), (20, 7, 5, 0, 5), (25, 0, 0, 0, 4)]);
    let split = list(&[(8, 7, 90, 18, 4), (0, 7, 90, 10, 5), (5, 7, 90, 15, 3)]);
    let edges = [
        list(&[(CHUNK - 8, 7, 100, 30, 8)]),
        list(&[(0, 7, 100, 38, 8), (CHUNK - 4, 0, 0, 0, 4)]),
        Vec::new(),
    ];
    let (index, chunk_len, block_size, out) = (7, CHUNK, BLOCK, Room::Right);
    let alone = |list, start, count| Call::ReadPlan {
        list,
        index,
        chunk_len,
        block_size,
        start,
        count,
        out,
    };
    let across = |lists: &[Vec<u8>], start| {
        let file = Joined::of(lists, 5, u64::MAX);
        Call::FilePlan { file, block_size, start, count: u64::MAX, out }
    };
    vec![
        alone(three(), 0, CHUNK),
        alone(three(), 15_728_640, 2_097_152),
        alone(zeros, 1, u64::MAX),
        alone(split, 0, 20),
        across(&[three(), three(), three()], 1),
        across(&edges, CHUNK - 2),
    ]
}
