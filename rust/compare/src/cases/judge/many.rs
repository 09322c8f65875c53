//! Plans of thousands of pieces.

use second::limits::PIECE;

use super::super::{three, BLOCK, MIB};
use super::about_an_edge;
use crate::call::{Call, Room};
use crate::elsewhere::{asked, cut, ours, shuffle};
use crate::joined::Joined;
use rng::Rng;

/// Numbers of pieces at and about powers of two, and two above.
const COUNTS: [u64; 11] =
    [1_023, 1_024, 1_025, 2_047, 2_048, 2_049, 4_095, 4_096, 4_097, 5_001, 8_193];

pub fn all() -> Vec<Call> {
    let counted = COUNTS.into_iter().flat_map(many);
    counted.chain([256, 4_096, 65_536].into_iter().filter_map(copies)).collect()
}

/// Our plan, and one piece of it so many times more: a count of 8, 12 or 16 bits comes back to one.
fn copies(more: usize) -> Option<Call> {
    let planned = about_an_edge();
    let mut plan = ours(&planned);
    let piece = plan[PIECE..2 * PIECE].to_vec();
    plan.extend(piece.repeat(more));
    asked(&planned, plan)
}

/// So many single bytes in no order: all of them, without one, with one twice, and with a wrong one.
fn many(count: u64) -> Vec<Call> {
    let file = Joined::of(&[three()], 5, u64::MAX);
    let (block_size, start, out) = (BLOCK, 10 * MIB - count / 2, Room::Right);
    let planned = Call::FilePlan { file, block_size, start, count, out };
    let mut rng = Rng::new(count);
    let mut pieces = cut(&mut rng, &ours(&planned), usize::MAX, 1);
    shuffle(&mut rng, &mut pieces);
    let which = rng.below(count) as usize;
    let without = [&pieces[..which], &pieces[which + 1..]].concat();
    let twice = [&pieces[..], &pieces[which..=which]].concat();
    let mut wrong = pieces.clone();
    wrong[which][5] ^= 1;
    let plans = [pieces, without, twice, wrong];
    plans.iter().filter_map(|pieces| asked(&planned, pieces.concat())).collect()
}
