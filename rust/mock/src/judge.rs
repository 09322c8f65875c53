//! What `second` says of a plan as the struct of the C interface.
#![allow(non_camel_case_types)]

use second::{Judged, ListRefusal, Refusal};

#[repr(C)]
#[derive(Default)]
pub struct ezk_judged {
    refusal: u64,
    place: u64,
    index: u64,
    verdict: u64,
    at: u64,
}

pub fn judged(answer: Result<Judged, ListRefusal>) -> ezk_judged {
    let (verdict, at) = match answer {
        Ok(Judged::Accepted) => (1, 0),
        Ok(Judged::WrongPiece { number, .. }) => (2, number),
        Ok(Judged::WrongByte { place, .. }) => (3, place),
        Err(ListRefusal { refusal: Refusal { number, place }, index }) => {
            return ezk_judged { refusal: number, place, index, ..ezk_judged::default() };
        }
    };
    ezk_judged { verdict, at, ..ezk_judged::default() }
}
