//! The pieces of our own plan, one after the other, as the sites that other pieces must lie in.

use std::slice::Iter;

use crate::record::{four, len, place, PieceBytes, CHUNK};

/// A piece of ours, from place `start` of the read up to `end`.
pub struct Site<'a> {
    piece: &'a PieceBytes,
    start: u32,
    end: u32,
}

impl<'a> Site<'a> {
    #[inline(always)]
    fn new(piece: &'a PieceBytes, first: u32) -> Site<'a> {
        let start = place(piece) + (four(piece, 2) - first) * CHUNK;
        Site { piece, start, end: start + len(piece) }
    }

    /// Whether a piece that begins in or behind the site lies in it, and where it says.
    #[inline(always)]
    pub fn holds(&self, piece: &PieceBytes) -> bool {
        let (place, len) = (place(piece), len(piece));
        let moved = if self.piece[1] == b'Z' { 0 } else { place - self.start };
        // A length of 0 wraps.
        place < self.end
            && len.wrapping_sub(1) < self.end - place
            && piece[0..6] == self.piece[0..6]
            && piece[10..26] == self.piece[10..26]
            && four(piece, 26) == four(self.piece, 26) + moved
    }
}

/// Where rising places have got to.
pub struct Sites<'a> {
    site: Site<'a>,
    left: Iter<'a, PieceBytes>,
    first: u32,
}

impl<'a> Sites<'a> {
    /// Of the chunks from `first` on; places are those of the chunks.
    #[inline(always)]
    pub fn new(ours: &'a [PieceBytes], first: u32) -> Sites<'a> {
        let mut left = ours.iter();
        let piece = left.next().expect("the read of a chunk has a piece");
        Sites { site: Site::new(piece, first), left, first }
    }

    /// The site that holds a place, or the last one.
    #[inline(always)]
    pub fn at(&mut self, place: u32) -> &Site<'a> {
        while self.site.end <= place {
            match self.left.next() {
                Some(piece) => self.site = Site::new(piece, self.first),
                None => break,
            }
        }
        &self.site
    }
}
