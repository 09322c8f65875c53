//! Plans that are another read's, and faults of a plan's bytes.

use second::limits::PIECE;

use super::ours;
use crate::call::Call;
use crate::mutate;
use rng::Rng;

/// Our plan of another read: one byte further or longer, in other blocks, or of other chunks.
pub fn other(rng: &mut Rng, planned: &Call) -> Vec<u8> {
    let mut planned = planned.clone();
    if let Call::FilePlan { file, block_size, start, count, .. } = &mut planned {
        match rng.below(6) {
            0 => *start = start.saturating_add(1),
            1 => *start = start.saturating_sub(1),
            2 => *count = count.saturating_add(1),
            3 => *count = count.saturating_sub(1),
            4 => *block_size = 65_536 << rng.below(9),
            _ => file.first_index = file.first_index.saturating_sub(1),
        }
    }
    ours(&planned)
}

/// Spoils the bytes of a plan in one way, or leaves them as they are: most stay.
pub fn spoil(rng: &mut Rng, plan: &mut Vec<u8>) {
    match rng.below(36) {
        0 | 1 => rest(rng, plan),
        2 => plan.truncate(rng.below(plan.len() as u64 + 1) as usize),
        3 => {
            let (at, more) = (rng.below(plan.len() as u64 + 1) as usize, 1 + rng.below(40));
            plan.splice(at..at, rng.bytes(more));
        }
        4 => {
            let length = rng.below(200);
            *plan = rng.bytes(length);
        }
        5 => plan.clear(),
        6 => mutate::byte(rng, plan),
        _ => {}
    }
}

/// The first bytes of a piece behind the others, or other bytes.
fn rest(rng: &mut Rng, plan: &mut Vec<u8>) {
    let bytes = 1 + rng.below(PIECE as u64 - 1);
    if plan.is_empty() || rng.once_in(3) {
        plan.extend(rng.bytes(bytes));
    } else {
        let piece = plan[..bytes as usize].to_vec();
        plan.extend(piece);
    }
}
