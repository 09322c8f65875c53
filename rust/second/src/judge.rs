//! Plans made elsewhere: is a piece wrong in itself, and is each byte of the read in one piece?
//! Every byte of a piece is looked up where the lists have it, and it is counted how many pieces hold
//! each byte of the read. Our own plan is not made for it.

use std::collections::BTreeMap;

use crate::file::{located, InChunk};
use crate::limits::PIECE;
use crate::runs::{Run, Step};
use crate::{File, ListRefusal, Location, Piece};

/// What is said of a plan; beside the number or the place, why.
#[derive(Clone, Copy, Debug, PartialEq, Eq)]
pub enum Judged {
    Accepted,
    /// The number, from 0, of the first piece that is wrong in itself.
    WrongPiece {
        number: u64,
        why: Wrong,
    },
    /// The first byte that isn't in one piece, and in how many it is.
    WrongByte {
        place: u64,
        pieces: u64,
    },
}

/// Why a piece is wrong in itself: the first reason that fits.
#[derive(Clone, Copy, Debug, PartialEq, Eq)]
pub enum Wrong {
    /// Fewer than 34 bytes are left.
    CutShort,
    Mark,
    /// An `RZ` with id, block, block length or place in block set.
    ZerosOfObject,
    Empty,
    /// It reaches outside the read.
    Outside,
    /// The lists have this byte of it, the first such one, in another chunk or at another place.
    Elsewhere {
        byte: u64,
        index: u64,
        from: Location,
    },
}

/// Refusals 21, 8, then list by list 1, 2, 3 to 6, 16.
pub fn judge(
    file: &File,
    block_size: u64,
    start: u64,
    count: u64,
    plan: &[u8],
) -> Result<Judged, ListRefusal> {
    let read = located(file, block_size, start, count)?;
    for (number, bytes) in (0..).zip(plan.chunks(PIECE)) {
        if let Some(why) = wrong(bytes, &read) {
            return Ok(Judged::WrongPiece { number, why });
        }
    }
    let pieces: Vec<Piece> = plan.chunks(PIECE).map(Piece::from_bytes).collect();
    Ok(match not_once(&pieces, length(&read)) {
        Some((place, pieces)) => Judged::WrongByte { place, pieces },
        None => Judged::Accepted,
    })
}

/// How many bytes the read has.
fn length(read: &[Run<InChunk>]) -> u64 {
    read.last().map_or(0, |part| part.start + part.len)
}

/// What is wrong with a piece in itself.
fn wrong(bytes: &[u8], read: &[Run<InChunk>]) -> Option<Wrong> {
    if bytes.len() < PIECE {
        return Some(Wrong::CutShort);
    }
    match &bytes[0..2] {
        b"RB" => {}
        // Id, block, block length and place in block.
        b"RZ" if bytes[10..30] != [0; 20] => return Some(Wrong::ZerosOfObject),
        b"RZ" => {}
        _ => return Some(Wrong::Mark),
    }
    let piece = Piece::from_bytes(bytes);
    if piece.len == 0 {
        return Some(Wrong::Empty);
    }
    if piece.place + piece.len > length(read) {
        return Some(Wrong::Outside);
    }
    elsewhere(&piece, read)
}

/// Goes through the parts that share bytes with the piece. From one byte to the next both go on by
/// one, so the first byte that they share tells of all that they share.
fn elsewhere(piece: &Piece, read: &[Run<InChunk>]) -> Option<Wrong> {
    let before = |part: &Run<InChunk>| part.start + part.len <= piece.place;
    let shared = &read[read.partition_point(before)..];
    for part in shared.iter().take_while(|part| part.start < piece.place + piece.len) {
        let place = piece.place.max(part.start);
        let byte = place - piece.place;
        let said = InChunk { index: piece.index, location: piece.from.after(byte) };
        let there = part.first.after(place - part.start);
        if said != there {
            return Some(Wrong::Elsewhere { byte, index: there.index, from: there.location });
        }
    }
    None
}

/// The first byte that isn't held by one piece, and by how many it is. Between two places at which
/// pieces start or end, all bytes are held by the same ones.
fn not_once(pieces: &[Piece], length: u64) -> Option<(u64, u64)> {
    let mut changes = BTreeMap::from([(0, (0, 0)), (length, (0, 0))]);
    for piece in pieces {
        changes.entry(piece.place).or_default().0 += 1;
        changes.entry(piece.place + piece.len).or_default().1 += 1;
    }
    let mut held = 0;
    for (place, (starts, ends)) in changes.range(..length) {
        held = held + starts - ends;
        if held != 1 {
            return Some((*place, held));
        }
    }
    None
}
