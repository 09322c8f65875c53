//! Which records of its lists a plan shows.

use std::collections::HashSet;

use second::limits::{CHUNK, RECORD};
use second::{Piece, Record};

use super::Asked;

/// Two that `files::over_edges` may have laid into a list, and two of its own.
const SEVERAL: usize = 4;

/// Two lists or more show several records each.
pub fn of_two_lists(a: &Asked) -> bool {
    if !a.reads() || a.lists_of(SEVERAL) < 2 {
        return false;
    }
    let lists = a.file.each();
    let shown: HashSet<_> = a.pieces().iter().filter_map(|piece| shown(a, &lists, piece)).collect();
    let several = |list: &usize| shown.iter().filter(|(of, _)| of == list).count() >= SEVERAL;
    (0..lists.len()).filter(several).count() > 1
}

/// The list of a piece, and the place there of the record that its first byte is from.
fn shown(a: &Asked, lists: &[&[u8]], piece: &Piece) -> Option<(usize, usize)> {
    let list = (piece.index - a.file.first_index) as usize;
    let position = a.start + piece.place - list as u64 * CHUNK;
    let mut records = lists[list].chunks(RECORD).map(Record::from_bytes);
    records.rposition(|record| record.covers(position)).map(|place| (list, place))
}
