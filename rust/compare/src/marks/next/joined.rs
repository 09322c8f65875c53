//! Which records of its list a piece joins.

use std::collections::HashSet;

use second::limits::CHUNK;
use second::Piece;

use super::Asked;
use crate::marks::shown::shown;

/// Runs of zeros that are many.
const MANY: usize = 16;

impl Asked<'_> {
    /// Bytes of two records or more.
    pub fn joins_slices(&self) -> bool {
        self.is_object() && self.records() > 1
    }

    /// Of two records or more, and a hole.
    pub fn joins_zeros(&self) -> bool {
        self.is_zeros() && self.records() > 1 && self.shown().contains(&None)
    }

    pub fn joins_many_zeros(&self) -> bool {
        self.is_zeros() && self.records() >= MANY
    }

    /// How many records the piece shows from the place on.
    fn records(&self) -> usize {
        self.shown().into_iter().flatten().count()
    }

    /// The records by their places in the list, and none for a hole.
    fn shown(&self) -> HashSet<Option<usize>> {
        self.piece().map_or(HashSet::new(), |piece| self.shown_by(piece))
    }

    fn shown_by(&self, piece: &Piece) -> HashSet<Option<usize>> {
        let list = (piece.index - self.index) as usize;
        let position = |place| self.start + place - list as u64 * CHUNK;
        shown(self.lists[list], position(self.at)..position(piece.place + piece.len))
    }
}
