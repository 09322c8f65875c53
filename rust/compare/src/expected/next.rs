//! The next piece.

use ezumokarin::sys::{ezk_file_next, ezk_next};
use second::{ListRefusal, Location, Next, Piece, Refusal};

/// `at` is the place that was given.
pub fn next(answer: Result<Option<Next>, Refusal>, at: u64) -> (u64, ezk_next) {
    match answer {
        Ok(Some(Next { piece, next })) => (0, ezk_next { next, ..handed_out(piece) }),
        Ok(None) => (0, ezk_next { finished: 1, next: at, ..Default::default() }),
        Err(Refusal { number, place }) => {
            (number, ezk_next { refusal: number, place, ..Default::default() })
        }
    }
}

pub fn file_next(answer: Result<Option<Next>, ListRefusal>, at: u64) -> (u64, ezk_file_next) {
    let list_index = answer.as_ref().map_or_else(|refused| refused.index, |_| 0);
    let (refusal, same) = next(answer.map_err(|refused| refused.refusal), at);
    let answer = ezk_file_next {
        refusal,
        place: same.place,
        list_index,
        finished: same.finished,
        next: same.next,
        mark: same.mark,
        index: same.index,
        at: same.at,
        id: same.id,
        block: same.block,
        block_len: same.block_len,
        in_block: same.in_block,
        len: same.len,
    };
    (refusal, answer)
}

/// The fields of a piece.
fn handed_out(Piece { index, place, from, len }: Piece) -> ezk_next {
    let piece = ezk_next { index, at: place, len, ..Default::default() };
    match from {
        Location::Zeros => ezk_next { mark: 0x525a, ..piece },
        Location::Object { id, block, length, at } => {
            ezk_next { mark: 0x5242, id, block, block_len: length, in_block: at, ..piece }
        }
    }
}
