//! All programs must write the same bytes, and leave the rest of their buffers as it was.

use crate::record::{LIST_RECORDS, PIECE, RECORD};
use crate::timed::Who;
use crate::yard::most_pieces;

/// How much of each of two buffers was written.
pub type Counts = Option<(usize, usize)>;
/// Takes a list and two buffers.
pub type Writer = Box<dyn FnMut(&[u8], &mut [u8], &mut [u8]) -> Counts>;

/// Room to spare: for the longest plan, and for a compacted list.
pub fn buffers() -> (Vec<u8>, Vec<u8>) {
    (vec![0xaa; most_pieces(LIST_RECORDS, 65_536) * PIECE], vec![0xaa; RECORD])
}

/// The counts that all have in common, if they do.
pub fn same(list: &[u8], writers: &mut [(Who, Writer)]) -> Result<Counts, String> {
    let mut first = None;
    for (who, write) in writers {
        let (mut out, mut other) = buffers();
        let answer = (write(list, &mut out, &mut other), out, other);
        if *first.get_or_insert_with(|| answer.clone()) != answer {
            return Err(format!("{who:?} differs"));
        }
    }
    Ok(first.and_then(|(counts, ..)| counts))
}
