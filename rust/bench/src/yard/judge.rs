//! Plans made elsewhere, for reads of whole chunks: our own plan is made once, the pieces are put in
//! order of place, and both are gone through together.

use ezumokarin::Judged;

use crate::record::{place, PieceBytes, CHUNK, PIECE};
use crate::yard::check::checked;
use crate::yard::pass::Pass;
use crate::yard::plan::{allowed, write};
use crate::yard::room::most_pieces;
use crate::yard::Room;

/// The lists of some chunks, one behind the other.
#[derive(Clone, Copy)]
pub struct Lists<'a> {
    pub lists: &'a [u8],
    pub lengths: &'a [u64],
    pub first: u32,
}

impl<'a> Lists<'a> {
    /// Not refusal 21.
    fn fit(self) -> bool {
        let all = self.lengths.iter().try_fold(0, |sum: u64, length| sum.checked_add(*length));
        (1..=16).contains(&self.lengths.len())
            && all == Some(self.lists.len() as u64)
            && u64::from(self.first) + self.lengths.len() as u64 <= 1 << 32
    }

    fn singles(self) -> impl Iterator<Item = &'a [u8]> {
        let mut rest = self.lists;
        self.lengths.iter().map(move |length| {
            let (list, behind) = rest.split_at(*length as usize);
            rest = behind;
            list
        })
    }
}

/// What is kept from call to call.
pub struct Judge {
    room: Box<Room>,
    ours: Vec<u8>,
    keys: Vec<u64>,
}

impl Judge {
    pub fn new() -> Judge {
        Judge { room: Room::new(), ours: Vec::new(), keys: Vec::new() }
    }

    #[inline(never)]
    pub fn judge(&mut self, file: Lists, block_size: u32, plan: &[u8]) -> Option<Judged> {
        if !file.fit() || !allowed(block_size) {
            return None;
        }
        // All lists are checked before one is resolved.
        for list in file.singles() {
            checked(list, &mut self.room.sizes)?;
        }
        let count = self.plan(file, block_size);
        let ours = self.ours[..count].as_chunks().0;
        let (pieces, rest) = plan.as_chunks::<PIECE>();
        let in_order = Pass::over(ours, file.first, pieces, 0..pieces.len());
        let pass = in_order.or_else(|| {
            sort(&mut self.keys, pieces);
            let numbers = self.keys.iter().map(|key| *key as u32 as usize);
            Pass::over(ours, file.first, pieces, numbers)
        })?;
        let whole = rest.is_empty();
        Some(pass.verdict(pieces.len(), whole, file.lengths.len() as u32 * CHUNK))
    }

    /// Our own plan: how many bytes it has. Its places are those of the chunks.
    fn plan(&mut self, file: Lists, block_size: u32) -> usize {
        let mut count = 0;
        for (index, list) in (file.first..=u32::MAX).zip(file.singles()) {
            let records = list.as_chunks().0;
            let most = count + most_pieces(records.len(), block_size) * PIECE;
            if self.ours.len() < most {
                self.ours.resize(most, 0);
            }
            let (spans, out) = (&mut self.room.spans, &mut self.ours[count..]);
            spans.take(records);
            count += write(spans, records, (index, block_size), (0, CHUNK), out);
        }
        count
    }
}

/// The pieces' numbers in order of place, each in the lower half of its key.
fn sort(keys: &mut Vec<u64>, pieces: &[PieceBytes]) {
    keys.clear();
    let numbered = pieces.iter().zip(0u64..);
    keys.extend(numbered.map(|(piece, number)| u64::from(place(piece)) << 32 | number));
    keys.sort_unstable();
}
