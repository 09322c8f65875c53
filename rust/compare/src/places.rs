//! Places in a read, for the calls that give its pieces one at a time. Each is made of a call that
//! plans the whole read.

use second::limits::PIECE;
use second::{file_plan_bytes, read_plan_bytes, Piece};

use crate::call::Call;
use crate::numbers;
use rng::Rng;

/// Asks for the next piece of a planned read instead, at some place.
pub fn somewhere(rng: &mut Rng, mut planned: Call) -> Call {
    if rng.once_in(2) {
        widen(rng, &mut planned);
    }
    let pieces = pieces(&planned).unwrap_or_default();
    let at = match rng.below(14) {
        0 => 0,
        1 | 2 => end(&pieces),
        3 => end(&pieces) + 1 + rng.below(3),
        4 => u64::MAX - rng.below(3),
        5 => that_wraps(rng, &planned),
        // Cut to 32 bits it would lie in the read.
        6 => (1 << (32 + rng.below(32))) + rng.below(end(&pieces) + 1),
        7 => numbers::any(rng),
        _ => in_a_piece(rng, &pieces),
    };
    asked(&planned, at).expect("a planned read")
}

/// Makes it a long read from the front on: many pieces for a place to lie in.
pub fn widen(rng: &mut Rng, planned: &mut Call) {
    if let Call::ReadPlan { start, count, .. } | Call::FilePlan { start, count, .. } = planned {
        *start = rng.below(20);
        *count = u64::MAX - rng.below(40);
    }
}

/// The call for the next piece at this place; none where no read is planned.
pub fn asked(planned: &Call, at: u64) -> Option<Call> {
    match planned.clone() {
        Call::ReadPlan { list, index, chunk_len, block_size, start, count, .. } => {
            Some(Call::NextPiece { list, index, chunk_len, block_size, start, count, at })
        }
        Call::FilePlan { file, block_size, start, count, .. } => {
            Some(Call::NextFilePiece { file, block_size, start, count, at })
        }
        _ => None,
    }
}

/// The pieces of a planned read; none where there is no plan, or a refusal.
pub fn pieces(planned: &Call) -> Option<Vec<Piece>> {
    let plan = match planned {
        Call::ReadPlan { list, index, chunk_len, block_size, start, count, .. }
        | Call::NextPiece { list, index, chunk_len, block_size, start, count, .. } => {
            read_plan_bytes(list, *index, *chunk_len, *block_size, *start, *count).ok()?
        }
        Call::FilePlan { file, block_size, start, count, .. }
        | Call::NextFilePiece { file, block_size, start, count, .. } => {
            file_plan_bytes(&file.file(), *block_size, *start, *count).ok()?
        }
        _ => return None,
    };
    Some(plan.chunks(PIECE).map(Piece::from_bytes).collect())
}

/// Where the read ends.
pub fn end(pieces: &[Piece]) -> u64 {
    pieces.last().map_or(0, |piece| piece.place + piece.len)
}

/// With the start of the read it would wrap to a small number.
fn that_wraps(rng: &mut Rng, planned: &Call) -> u64 {
    let start = match planned {
        Call::ReadPlan { start, .. } | Call::FilePlan { start, .. } => *start,
        _ => 0,
    };
    start.wrapping_neg().wrapping_add(rng.below(200))
}

/// The first byte of a piece, its last, or one between them, often near the first: the last piece
/// of a chunk may be long. The last piece of all is often chosen.
fn in_a_piece(rng: &mut Rng, pieces: &[Piece]) -> u64 {
    let Some(last) = (pieces.len() as u64).checked_sub(1) else {
        return numbers::any(rng);
    };
    let which = if rng.once_in(4) { last } else { rng.below(last + 1) };
    let piece = &pieces[which as usize];
    match rng.below(6) {
        0 | 1 => piece.place,
        2 => piece.place + piece.len - 1,
        3 | 4 => piece.place + (rng.below(piece.len) >> rng.below(27)),
        _ => piece.place + rng.below(piece.len),
    }
}
