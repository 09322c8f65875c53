//! Kinds of judged plans that random calls must have met, each counted in a table of its own.

mod accepted;
mod bytes;
mod cover;
mod form;
mod joined;
mod others;
mod refused;

use second::limits::PIECE;
use second::{judge, Judged, Wrong};

use crate::call::Call;
use crate::elsewhere;
use crate::joined::Joined;
use crate::most;
use crate::tally::Tally;

/// Pieces that are many.
const MANY: usize = 2_048;

/// A call of `judge_plan` that was answered, and what the second program says of it.
struct Asked<'a> {
    file: &'a Joined,
    lists: Vec<&'a [u8]>,
    start: u64,
    /// How many bytes are read.
    length: u64,
    plan: &'a [u8],
    said: Judged,
    /// What would be said of it without its wrong piece, if it has one.
    others: Option<Judged>,
    ours: Vec<u8>,
}

struct Mark {
    name: &'static str,
    is: fn(&Asked) -> bool,
}

fn all() -> impl Iterator<Item = &'static Mark> {
    let wrong = form::MARKS.iter().chain(&cover::MARKS).chain(&others::MARKS);
    accepted::MARKS.iter().chain(wrong).chain(&bytes::MARKS)
}

/// Counts a call of `judge_plan` that gave this refusal under every mark that it has.
pub fn count(tally: &mut Tally, call: &Call, refusal: u64) {
    refused::count(tally, call, refusal);
    let Some(asked) = asked(call) else {
        return;
    };
    for mark in all().filter(|mark| (mark.is)(&asked)) {
        tally.mark(mark.name, call.name(), 0);
    }
}

/// What should have been met and was not.
pub fn missed(tally: &Tally) -> impl Iterator<Item = String> + '_ {
    let missed = all().filter(|mark| tally.counted(mark.name, "judge_plan", 0) == 0);
    let said = missed.map(|mark| format!("no answered judge_plan is {}", mark.name));
    said.chain(refused::missed(tally))
}

fn asked(call: &Call) -> Option<Asked<'_>> {
    let Call::JudgePlan { file, block_size, start, count, plan } = call else {
        return None;
    };
    let of = |plan: &[u8]| judge(&file.file(), *block_size, *start, *count, plan).ok();
    let said = of(plan)?;
    let others = match said {
        Judged::WrongPiece { number, .. } => of(&without(plan, number as usize)),
        _ => None,
    };
    let (length, ours) = (most::read(call), elsewhere::ours(call));
    Some(Asked { file, lists: file.each(), start: *start, length, plan, said, others, ours })
}

/// The plan without this piece.
fn without(plan: &[u8], number: usize) -> Vec<u8> {
    let mut pieces: Vec<&[u8]> = plan.chunks(PIECE).collect();
    pieces.remove(number);
    pieces.concat()
}

/// The number of four bytes that stands at this place.
fn four(bytes: &[u8], at: usize) -> u64 {
    bytes[at..at + 4].iter().fold(0, |number, byte| number << 8 | u64::from(*byte))
}

impl Asked<'_> {
    /// How many whole pieces the plan has.
    fn pieces(&self) -> usize {
        self.plan.len() / PIECE
    }

    /// The number of the wrong piece.
    fn number(&self) -> Option<usize> {
        match self.said {
            Judged::WrongPiece { number, .. } => Some(number as usize),
            _ => None,
        }
    }

    /// Why a piece is wrong.
    fn why(&self) -> Option<Wrong> {
        match self.said {
            Judged::WrongPiece { why, .. } => Some(why),
            _ => None,
        }
    }

    /// The bytes of the wrong piece.
    fn wrong_bytes(&self) -> &[u8] {
        self.plan.chunks(PIECE).nth(self.number().unwrap_or(0)).unwrap_or_default()
    }

    /// The numbers of four bytes that stand at this place of the pieces.
    fn numbers(&self, at: usize) -> impl Iterator<Item = u64> + '_ {
        self.plan.chunks_exact(PIECE).map(move |bytes| four(bytes, at))
    }

    /// The places of the pieces in the read.
    fn places(&self) -> Vec<u64> {
        self.numbers(6).collect()
    }

    fn rises(&self) -> bool {
        self.places().is_sorted()
    }

    fn falls(&self) -> bool {
        self.places().iter().rev().is_sorted()
    }

    fn in_no_order(&self) -> bool {
        !self.rises() && !self.falls()
    }
}
