//! Refusals at places where nothing is left of the read.

use crate::call::Call;
use crate::most;
use crate::tally::Tally;

const NAME: &str = "next, refused though at end";

/// The calls, and what each must have been refused with there.
const MET: [(&str, &[u64]); 2] = [
    ("next_piece", &[7, 21, 8, 1, 2, 3, 4, 5, 6, 16]),
    ("next_file_piece", &[21, 8, 1, 2, 3, 4, 5, 6, 16]),
];

/// Counts a refused call whose place is not below what its numbers leave of the read.
pub fn count(tally: &mut Tally, call: &Call, refusal: u64) {
    let (Call::NextPiece { at, .. } | Call::NextFilePiece { at, .. }) = call else {
        return;
    };
    if refusal != 0 && *at >= most::read(call) {
        tally.mark(NAME, call.name(), refusal);
    }
}

pub fn missed(tally: &Tally) -> impl Iterator<Item = String> + '_ {
    let pairs = MET.into_iter().flat_map(|(call, met)| met.iter().map(move |met| (call, *met)));
    let missed = pairs.filter(|(call, met)| tally.counted(NAME, call, *met as usize) == 0);
    missed.map(|(call, met)| format!("no {call} is {NAME} and gives {met}"))
}
