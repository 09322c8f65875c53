//! Accepted pieces that join parts of several records.

use second::limits::{CHUNK, PIECE};
use second::Judged;

use super::{four, Asked};
use crate::marks::shown::shown;

/// Longer plans are not looked through.
const FEW: usize = 100;

impl Asked<'_> {
    /// A piece with this mark shows two records, or a record and a hole.
    pub fn joins(&self, mark: &[u8]) -> bool {
        let mut marked = self.plan.chunks(PIECE).filter(|bytes| bytes.starts_with(mark));
        self.said == Judged::Accepted
            && self.pieces() < FEW
            && marked.any(|bytes| self.records(bytes) > 1)
    }

    /// How many records an accepted piece shows; a hole counts as one.
    fn records(&self, bytes: &[u8]) -> usize {
        let list = four(bytes, 2) - self.file.first_index;
        let from = self.start + four(bytes, 6) - list * CHUNK;
        shown(self.lists[list as usize], from..from + four(bytes, 30)).len()
    }
}
