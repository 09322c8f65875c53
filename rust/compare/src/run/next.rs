//! The next piece at a place; and, of a read that is not refused, the pieces one by one from place 0
//! on, which must be those of the whole plan.

use std::fmt::Debug;

use ezumokarin::sys::{ezk_file_next, ezk_next};
use second::limits::PIECE;
use second::{Next, Piece};

use super::file::LentLists;
use super::Seen;
use crate::expected::{file_next, next};
use crate::joined::Joined;
use crate::lent::Lent;

/// So many first pieces and so many last ones are asked for: a plan may have thousands.
const PIECES: usize = 8;

type NextPiece = fn(&[u8], u64, u64, u64, u64, u64, u64) -> ezk_next;
type NextFilePiece = fn(&[u8], &[u64], u64, u64, u64, u64, u64, u64) -> ezk_file_next;

pub fn of_chunk(
    list: &[u8],
    [index, chunk_len, block_size, start, count]: [u64; 5],
    at: u64,
    shift: usize,
    archive: NextPiece,
) -> Seen {
    let lent = Lent::holding(list, shift);
    let ask = |at| archive(lent.part(), index, chunk_len, block_size, start, count, at);
    let want = second::next_piece(list, index, chunk_len, block_size, start, count, at);
    let (refusal, want) = next(want, at);
    let mut seen = Seen { refusal, faults: Vec::new() };
    seen.same("answer", &ask(at), &want);
    let plan = second::read_plan_bytes(list, index, chunk_len, block_size, start, count);
    if let Ok(plan) = plan {
        one_by_one(&mut seen, &plan, ask, |piece, at| next(Ok(piece), at).1);
    }
    seen.kept("input", &lent, 0);
    seen
}

pub fn of_file(
    file: &Joined,
    (block_size, start, count): (u64, u64, u64),
    at: u64,
    shift: usize,
    archive: NextFilePiece,
) -> Seen {
    let lent = LentLists::of(file, shift);
    let Joined { first_index, file_len, .. } = *file;
    let (lists, lengths) = (lent.lists.part(), lent.lengths());
    let ask = |at| archive(lists, lengths, first_index, file_len, block_size, start, count, at);
    let want = second::next_file_piece(&file.file(), block_size, start, count, at);
    let (refusal, want) = file_next(want, at);
    let mut seen = Seen { refusal, faults: Vec::new() };
    seen.same("answer", &ask(at), &want);
    if let Ok(plan) = second::file_plan_bytes(&file.file(), block_size, start, count) {
        one_by_one(&mut seen, &plan, ask, |piece, at| file_next(Ok(piece), at).1);
    }
    lent.kept(file, &mut seen);
    seen
}

/// Each piece of the plan is given at its place, with the next one's; and at the end none.
fn one_by_one<T: Debug + PartialEq>(
    seen: &mut Seen,
    plan: &[u8],
    ask: impl Fn(u64) -> T,
    given: impl Fn(Option<Next>, u64) -> T,
) {
    let pieces: Vec<Piece> = plan.chunks(PIECE).map(Piece::from_bytes).collect();
    let middle = PIECES..pieces.len().saturating_sub(PIECES);
    let mut end = 0;
    for (number, piece) in pieces.into_iter().enumerate() {
        let at = end;
        end += piece.len;
        if !middle.contains(&number) {
            let next = Some(Next { piece, next: end });
            seen.same("a piece of the plan", &ask(at), &given(next, at));
        }
    }
    seen.same("the end of the plan", &ask(end), &given(None, end));
}
