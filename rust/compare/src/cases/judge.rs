//! Judged plans by the paper's words: our plans of the other cases, whole, without their first or last
//! piece, and with two pieces as one; each fault of a piece; and rests.

mod many;

use second::limits::{CHUNK, PIECE};

use super::{list, three, BLOCK};
use crate::call::{Call, Room};
use crate::elsewhere::{asked, join, ours, rows};
use crate::joined::Joined;

/// The last bytes of a piece's place and of its length.
const PLACE: usize = 9;
const LEN: usize = 33;

/// So many pieces of a plan are joined with the next: a plan may have thousands.
const JOINED: usize = 8;

/// Of planned reads, these plans judged.
pub fn of(planned: &[Call]) -> Vec<Call> {
    let mut calls: Vec<Call> = planned.iter().flat_map(about_ours).collect();
    calls.extend(planned.iter().flat_map(joined));
    calls.extend(bytes_of_pieces());
    calls.extend(rests());
    calls.extend(every_pair());
    calls.extend(two_wrong());
    calls.extend(far_off());
    calls.extend(many::all());
    calls
}

fn about_ours(planned: &Call) -> Vec<Call> {
    let plan = ours(planned);
    let twice = plan.repeat(2);
    let falling: Vec<u8> = plan.rchunks(PIECE).flatten().copied().collect();
    let short = plan[..plan.len().saturating_sub(1)].to_vec();
    let without_first = plan.get(PIECE..).unwrap_or_default().to_vec();
    let without_last = plan[..plan.len().saturating_sub(PIECE)].to_vec();
    [plan, twice, falling, short, without_first, without_last, Vec::new()]
        .into_iter()
        .filter_map(|plan| asked(planned, plan))
        .collect()
}

/// Two neighbours as one piece, over the edge of a block, of a chunk or of a slice.
fn joined(planned: &Call) -> Vec<Call> {
    let pieces = rows(&ours(planned));
    let first = 0..pieces.len().saturating_sub(1).min(JOINED);
    let with_joined = |which| {
        let mut pieces = pieces.clone();
        join(&mut pieces, which);
        asked(planned, pieces.concat())
    };
    first.filter_map(with_joined).collect()
}

/// 60 bytes about an edge: nothing, a slice in two blocks up to the edge, and behind it zeros.
fn about_an_edge() -> Call {
    let slice = (CHUNK - 30, 7, 2 * BLOCK, BLOCK - 10, 30);
    let file = Joined::of(&[list(&[slice]), list(&[(0, 0, 0, 0, 9)])], 5, u64::MAX);
    let (start, count) = (CHUNK - 40, 60);
    Call::FilePlan { file, block_size: BLOCK, start, count, out: Room::Right }
}

/// Each byte of each piece, one more and one less.
fn bytes_of_pieces() -> Vec<Call> {
    let planned = about_an_edge();
    let plan = ours(&planned);
    let mut calls = Vec::new();
    for (at, by) in (0..plan.len()).flat_map(|at| [(at, 1), (at, 255)]) {
        let mut changed = plan.clone();
        changed[at] = changed[at].wrapping_add(by);
        calls.extend(asked(&planned, changed));
    }
    calls
}

/// 1 to 33 bytes behind a plan, alone, and where nothing is read.
fn rests() -> Vec<Call> {
    let planned = about_an_edge();
    let file = Joined::of(&[three()], 5, 0);
    let (block_size, start, count, out) = (BLOCK, 0, 9, Room::Right);
    let nothing = Call::FilePlan { file, block_size, start, count, out };
    let plan = ours(&planned);
    let mut calls = Vec::new();
    for bytes in 1..PIECE {
        let rest = &plan[..bytes];
        calls.extend(asked(&planned, [&plan, rest].concat()));
        calls.extend(asked(&planned, rest.to_vec()));
        calls.extend(asked(&nothing, rest.to_vec()));
    }
    calls.extend(asked(&nothing, plan[..PIECE].to_vec()));
    calls
}

/// Two of our pieces alone, also one twice.
fn every_pair() -> Vec<Call> {
    let planned = about_an_edge();
    let pieces = rows(&ours(&planned));
    let pairs = pieces.iter().flat_map(|first| pieces.iter().map(move |second| [*first, *second]));
    pairs.filter_map(|pair| asked(&planned, pair.concat())).collect()
}

/// Each two pieces with another mark, or with another chunk.
fn two_wrong() -> Vec<Call> {
    let planned = about_an_edge();
    let pieces = rows(&ours(&planned));
    let pairs = (0..pieces.len()).flat_map(|second| (0..second).map(move |first| [first, second]));
    let spoilt = |(pair, at): ([usize; 2], usize)| {
        let mut pieces = pieces.clone();
        pair.iter().for_each(|which| pieces[*which][at] ^= 1);
        asked(&planned, pieces.concat())
    };
    pairs.flat_map(|pair| [(pair, 0), (pair, 5)]).filter_map(spoilt).collect()
}

/// Places and lengths about 2^32, of each piece: in 32 bits some of their sums lie in the read.
fn far_off() -> Vec<Call> {
    let planned = about_an_edge();
    let pieces = rows(&ours(&planned));
    let mut calls = Vec::new();
    for which in 0..pieces.len() {
        let place = u32::from(pieces[which][PLACE]);
        for (at, number) in [(LEN, place.wrapping_neg()), (LEN, u32::MAX), (PLACE, u32::MAX)]
            .into_iter()
            .flat_map(|(at, number)| (0..3).map(move |more| (at, number.wrapping_add(more))))
        {
            let mut pieces = pieces.clone();
            pieces[which][at - 3..=at].copy_from_slice(&number.to_be_bytes());
            calls.extend(asked(&planned, pieces.concat()));
        }
    }
    calls
}
