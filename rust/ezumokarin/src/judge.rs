//! Plans made elsewhere.
#![allow(clippy::too_many_arguments)] // as in the C interface

use crate::files::lists_passed;
use crate::{sys, ListRefusal};

/// What [`judge_plan`] says of a plan.
#[derive(Clone, Copy, Debug, PartialEq, Eq, Hash)]
#[must_use = "a plan that is not accepted may fetch other bytes"]
pub enum Judged {
    /// It fetches the same bytes as the plan of [`file_plan`](crate::file_plan()).
    Accepted,
    /// The number, from 0, of the first piece that is wrong in itself.
    WrongPiece(u64),
    /// No piece is wrong in itself; the place in the read of the first byte that is in no piece or in
    /// more than one.
    WrongByte(u64),
}

/// Says of a plan that was made elsewhere whether it gives each byte of a read once, and from where
/// the byte lies. The read is that of [`file_plan`](crate::file_plan()); `plan` has
/// [`Piece::LEN`](crate::Piece::LEN) bytes a piece, cut and ordered in any way.
///
/// A piece is wrong in itself if it has length 0, is cut short, has another mark than `RB` and `RZ`,
/// reaches outside the read, is an `RZ` with id, block, block length or place in block set, or if its
/// chunk, or its object and the place there, or zero, is for any byte of it not what the lists give.
/// So a piece may be shorter than one of [`file_plan`](crate::file_plan()), and never longer. Only the
/// empty plan is accepted for an empty read. No object is looked at.
///
/// All lists are checked first, also where the plan is wrong, and the first refused one is told.
/// Refusals: 21, 8, then list by list 1 to 6, 16.
///
/// ```
/// use ezumokarin::{file_plan, judge_plan, Judged, Piece, Record, CHUNK};
/// // The last 10 bytes of chunk 5, and 20 bytes of chunk 6.
/// let before = Record { pos: CHUNK as u32 - 10, id: 7, size: 10, off: 0, len: 10 };
/// let behind = Record { pos: 0, id: 8, size: 20, off: 0, len: 20 };
/// let lists = [before.to_bytes(), behind.to_bytes()].concat();
/// let judge = |plan: &[u8]| judge_plan(&lists, &[24, 24], 5, u64::MAX, 65_536, CHUNK - 4, 30, plan);
///
/// let mut plan = [0; 3 * Piece::LEN];
/// file_plan(&lists, &[24, 24], 5, u64::MAX, 65_536, CHUNK - 4, 30, &mut plan)?;
/// assert_eq!(judge(&plan)?, Judged::Accepted);
///
/// // In another order, without the piece at place 4, and with it twice.
/// let (first, rest) = plan.split_at(Piece::LEN);
/// let (second, third) = rest.split_at(Piece::LEN);
/// assert_eq!(judge(&[third, first, second].concat())?, Judged::Accepted);
/// assert_eq!(judge(&[third, first].concat())?, Judged::WrongByte(4));
/// assert_eq!(judge(&[third, first, second, second].concat())?, Judged::WrongByte(4));
///
/// // One byte too long, and cut short.
/// let mut longer = plan;
/// longer[Piece::LEN - 1] += 1;
/// assert_eq!(judge(&longer)?, Judged::WrongPiece(0));
/// assert_eq!(judge(&plan[..2 * Piece::LEN + 33])?, Judged::WrongPiece(2));
/// # Ok::<(), ezumokarin::ListRefusal>(())
/// ```
pub fn judge_plan(
    lists: &[u8],
    lengths: &[u64],
    first_index: u64,
    file_len: u64,
    block_size: u64,
    start: u64,
    count: u64,
    plan: &[u8],
) -> Result<Judged, ListRefusal> {
    told(sys::judge_plan(lists, lengths, first_index, file_len, block_size, start, count, plan))
}

fn told(answer: sys::ezk_judged) -> Result<Judged, ListRefusal> {
    lists_passed(answer.refusal, answer.place, answer.index)?;
    match (answer.verdict, answer.at) {
        (sys::EZK_ACCEPTED, 0) => Ok(Judged::Accepted),
        (sys::EZK_WRONG_PIECE, number) => Ok(Judged::WrongPiece(number)),
        (sys::EZK_WRONG_BYTE, place) => Ok(Judged::WrongByte(place)),
        // Only a library that doesn't belong to this crate can say more.
        (verdict, at) => {
            panic!("the library gave verdict {verdict} at {at}, unknown to this crate")
        }
    }
}

#[cfg(test)]
mod tests {
    use super::{told, Judged};
    use crate::sys::ezk_judged;
    use crate::{ListRefusal, Refusal};

    fn verdict(verdict: u64, at: u64) -> Result<Judged, ListRefusal> {
        told(ezk_judged { verdict, at, ..ezk_judged::default() })
    }

    #[test]
    fn every_verdict() {
        assert_eq!(verdict(1, 0), Ok(Judged::Accepted));
        for at in [0, 1, u64::MAX] {
            assert_eq!(verdict(2, at), Ok(Judged::WrongPiece(at)));
            assert_eq!(verdict(3, at), Ok(Judged::WrongByte(at)));
        }
    }

    /// Whatever else is set, a refused plan is not accepted.
    #[test]
    fn refusal_comes_first() {
        for verdict in [0, 1, 4] {
            let refused = ezk_judged { refusal: 6, place: 2, index: 5, verdict, at: 0 };
            let refusal = Refusal::SliceEnd { place: 2 };
            assert_eq!(told(refused), Err(ListRefusal { refusal, index: Some(5) }));
        }
    }

    #[test]
    #[should_panic(expected = "verdict 0 at 0")]
    fn no_verdict() {
        let _ = verdict(0, 0);
    }

    #[test]
    #[should_panic(expected = "verdict 4 at 0")]
    fn unknown_verdict() {
        let _ = verdict(4, 0);
    }

    #[test]
    #[should_panic(expected = "verdict 1 at 1")]
    fn accepted_at_a_place() {
        let _ = verdict(1, 1);
    }
}
