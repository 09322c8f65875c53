//! Plans to be judged, by hand: pieces from tuples, and verdicts in few words.

use second::{judge, File, Judged, Location, Piece, Wrong};

use super::files::Line;
use super::BLOCK;

pub fn plan(lines: &[Line]) -> Vec<u8> {
    let piece = |&(index, place, from, len): &Line| Piece { index, place, from, len }.to_bytes();
    lines.iter().flat_map(piece).collect()
}

/// What is said of a plan of bytes.
pub fn said(file: &File, (start, count): (u64, u64), plan: &[u8]) -> Judged {
    judge(file, BLOCK, start, count, plan).expect("no refusal")
}

/// What is said of a plan of pieces.
pub fn of(file: &File, read: (u64, u64), lines: &[Line]) -> Judged {
    said(file, read, &plan(lines))
}

pub fn wrong(number: u64, why: Wrong) -> Judged {
    Judged::WrongPiece { number, why }
}

/// The lists have the first byte of the piece here.
pub fn elsewhere(number: u64, index: u64, from: Location) -> Judged {
    elsewhere_from(number, 0, index, from)
}

/// The lists have this byte of the piece here, and those before it where it says.
pub fn elsewhere_from(number: u64, byte: u64, index: u64, from: Location) -> Judged {
    wrong(number, Wrong::Elsewhere { byte, index, from })
}

pub fn missing(place: u64) -> Judged {
    held(place, 0)
}

pub fn held(place: u64, pieces: u64) -> Judged {
    Judged::WrongByte { place, pieces }
}
