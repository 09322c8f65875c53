//! Pieces one at a time. The whole plan is made at each call, and the piece that holds the place is
//! looked up in it.

use crate::limits::PIECE;
use crate::runs::Step;
use crate::{file_plan_bytes, read_plan_bytes, File, ListRefusal, Piece, Refusal};

/// The piece that comes next, and the place to come back with.
#[derive(Clone, Copy, Debug, PartialEq, Eq)]
pub struct Next {
    pub piece: Piece,
    pub next: u64,
}

/// None once the read is finished. `at` is the count of bytes already handed out.
/// Refusals 7, 21, 8, 1, 2, 3 to 6, 16.
pub fn next_piece(
    list: &[u8],
    index: u64,
    chunk_len: u64,
    block_size: u64,
    start: u64,
    count: u64,
    at: u64,
) -> Result<Option<Next>, Refusal> {
    let plan = read_plan_bytes(list, index, chunk_len, block_size, start, count)?;
    Ok(rest_from(&plan, at))
}

/// The same across chunks. Refusals 21, 8, then list by list 1, 2, 3 to 6, 16.
pub fn next_file_piece(
    file: &File,
    block_size: u64,
    start: u64,
    count: u64,
    at: u64,
) -> Result<Option<Next>, ListRefusal> {
    Ok(rest_from(&file_plan_bytes(file, block_size, start, count)?, at))
}

/// What is left, from this place on, of the plan's piece that holds it.
fn rest_from(plan: &[u8], at: u64) -> Option<Next> {
    let holds = |piece: &Piece| (piece.place..piece.place + piece.len).contains(&at);
    let whole = plan.chunks(PIECE).map(Piece::from_bytes).find(holds)?;
    let out = at - whole.place;
    let piece = Piece { place: at, from: whole.from.after(out), len: whole.len - out, ..whole };
    Some(Next { piece, next: at + piece.len })
}
