//! The next piece of `second` as the structs of the C interface.
#![allow(non_camel_case_types)]

use second::{ListRefusal, Location, Next, Piece, Refusal};

#[repr(C)]
#[derive(Default)]
pub struct ezk_next {
    refusal: u64,
    place: u64,
    finished: u64,
    next: u64,
    mark: u64,
    index: u64,
    at: u64,
    id: u64,
    block: u64,
    block_len: u64,
    in_block: u64,
    len: u64,
}

#[repr(C)]
pub struct ezk_file_next {
    refusal: u64,
    place: u64,
    list_index: u64,
    finished: u64,
    next: u64,
    mark: u64,
    index: u64,
    at: u64,
    id: u64,
    block: u64,
    block_len: u64,
    in_block: u64,
    len: u64,
}

pub fn next(answer: Result<Option<Next>, Refusal>, at: u64) -> ezk_next {
    match answer {
        Ok(Some(Next { piece, next })) => ezk_next { next, ..handed_out(piece) },
        Ok(None) => ezk_next { finished: 1, next: at, ..ezk_next::default() },
        Err(Refusal { number, place }) => {
            ezk_next { refusal: number, place, ..ezk_next::default() }
        }
    }
}

pub fn file_next(answer: Result<Option<Next>, ListRefusal>, at: u64) -> ezk_file_next {
    let list_index = answer.as_ref().map_or_else(|refused| refused.index, |_| 0);
    let same = next(answer.map_err(|refused| refused.refusal), at);
    ezk_file_next {
        refusal: same.refusal,
        place: same.place,
        list_index,
        finished: same.finished,
        next: same.next,
        mark: same.mark,
        index: same.index,
        at: same.at,
        id: same.id,
        block: same.block,
        block_len: same.block_len,
        in_block: same.in_block,
        len: same.len,
    }
}

/// The fields of a piece; the mark is its two bytes as a number.
fn handed_out(Piece { index, place, from, len }: Piece) -> ezk_next {
    let (mark, id, block, block_len, in_block) = match from {
        Location::Zeros => (b"RZ", 0, 0, 0, 0),
        Location::Object { id, block, length, at } => (b"RB", id, block, length, at),
    };
    let (mark, at) = (u16::from_be_bytes(*mark).into(), place);
    ezk_next { mark, index, at, id, block, block_len, in_block, len, ..ezk_next::default() }
}
