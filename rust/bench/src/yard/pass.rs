//! One pass over the pieces of a plan by rising place, beside our own.

use ezumokarin::Judged;

use crate::record::{len, place, PieceBytes};
use crate::yard::sites::Sites;

/// What was seen of the pieces so far.
pub struct Pass {
    /// The least number of a wrong piece.
    wrong: Option<usize>,
    /// The first place that isn't held once.
    byte: Option<u32>,
    /// All places before this one were passed.
    reach: u32,
}

impl Pass {
    /// Over all pieces, beside ours; none where their places don't rise.
    #[inline(always)]
    pub fn over(
        ours: &[PieceBytes],
        first: u32,
        pieces: &[PieceBytes],
        numbers: impl Iterator<Item = usize>,
    ) -> Option<Pass> {
        let mut sites = Sites::new(ours, first);
        let mut pass = Pass { wrong: None, byte: None, reach: 0 };
        let mut last = 0;
        for number in numbers {
            let piece = &pieces[number];
            let place = place(piece);
            if place < last {
                return None;
            }
            last = place;
            if sites.at(place).holds(piece) {
                pass.held(place, len(piece));
            } else {
                pass.wrong = Some(pass.wrong.map_or(number, |least| least.min(number)));
            }
        }
        Some(pass)
    }

    /// As places rise, the first fault seen is that of the first byte.
    #[inline(always)]
    fn held(&mut self, place: u32, len: u32) {
        if place != self.reach {
            self.byte = self.byte.or(Some(place.min(self.reach)));
        }
        self.reach = self.reach.max(place + len);
    }

    pub fn verdict(&self, pieces: usize, whole: bool, length: u32) -> Judged {
        let wrong = self.wrong.or((!whole).then_some(pieces));
        let byte = self.byte.or((self.reach < length).then_some(self.reach));
        match (wrong, byte) {
            (Some(number), _) => Judged::WrongPiece(number as u64),
            (None, Some(place)) => Judged::WrongByte(place.into()),
            (None, None) => Judged::Accepted,
        }
    }
}
