//! Plans made elsewhere: the pieces of our own plan, cut into shorter ones, in three orders.

use std::collections::BTreeSet;

use rng::Rng;

use crate::record::{four, len, place, PieceBytes, PIECE};
use crate::shuffle::shuffle;

/// How the pieces stand.
#[derive(Clone, Copy, Debug, PartialEq, Eq)]
pub enum Order {
    Rising,
    Reversed,
    Shuffled,
}

impl Order {
    /// The plan of pieces that stand in order, in this order.
    pub fn plan(self, mut pieces: Vec<PieceBytes>) -> Vec<u8> {
        match self {
            Order::Rising => {}
            Order::Reversed => pieces.reverse(),
            Order::Shuffled => {
                let mut rng = Rng::new(pieces.len() as u64);
                shuffle(&mut pieces, &mut rng);
            }
        }
        pieces.concat()
    }
}

/// Where pieces are cut: anywhere in the read; or in crowds with wide gaps between them, each of more
/// pieces than the library can hold at a time where there are many; or mostly anywhere, the others
/// in few such crowds.
#[derive(Clone, Copy, Debug, PartialEq, Eq)]
pub enum Spread {
    Even,
    Crowded,
    Uneven,
}

impl Spread {
    fn place(self, length: u32, rng: &mut Rng) -> u32 {
        let length = u64::from(length);
        let place = match self {
            Spread::Even => rng.below(length),
            Spread::Crowded => in_crowds(20, 5_500, length, rng),
            Spread::Uneven if rng.below(10) < 7 => rng.below(length),
            Spread::Uneven => in_crowds(5, 12_000, length, rng),
        };
        place as u32
    }
}

/// A place in one of so many crowds, each of a width in places.
fn in_crowds(crowds: u64, width: u64, length: u64, rng: &mut Rng) -> u64 {
    rng.below(crowds) * (length / crowds) + rng.below(width)
}

/// So many pieces, cut from those of a plan in order at random places; none where it has more.
pub fn cut(plan: &[u8], pieces: usize, spread: Spread, rng: &mut Rng) -> Option<Vec<PieceBytes>> {
    let (ours, _) = plan.as_chunks::<PIECE>();
    let length = ours.last().map_or(0, |last| place(last) + len(last));
    let mut places: BTreeSet<u32> = ours.iter().map(place).collect();
    if places.len() > pieces || pieces > length as usize {
        return None;
    }
    while places.len() < pieces {
        places.insert(spread.place(length, rng));
    }
    let parts = ours.iter().flat_map(|piece| {
        let end = place(piece) + len(piece);
        let starts = places.range(place(piece)..end);
        let ends = places.range(place(piece) + 1..end).copied().chain([end]);
        starts.zip(ends).map(|(start, end)| part(piece, *start, end))
    });
    Some(parts.collect())
}

/// The part of a piece between two places of the read.
fn part(piece: &PieceBytes, start: u32, end: u32) -> PieceBytes {
    let mut part = *piece;
    if piece.starts_with(b"RB") {
        let in_block = four(piece, 26) + (start - place(piece));
        part[26..30].copy_from_slice(&in_block.to_be_bytes());
    }
    part[6..10].copy_from_slice(&start.to_be_bytes());
    part[30..34].copy_from_slice(&(end - start).to_be_bytes());
    part
}
