//! What is said of a plan.

use ezumokarin::sys::ezk_judged;
use second::{Judged, ListRefusal, Refusal};

pub fn judged(answer: Result<Judged, ListRefusal>) -> (u64, ezk_judged) {
    let (verdict, at) = match answer {
        Ok(Judged::Accepted) => (1, 0),
        Ok(Judged::WrongPiece { number, .. }) => (2, number),
        Ok(Judged::WrongByte { place, .. }) => (3, place),
        Err(ListRefusal { refusal: Refusal { number, place }, index }) => {
            return (number, ezk_judged { refusal: number, place, index, ..Default::default() });
        }
    };
    (0, ezk_judged { verdict, at, ..Default::default() })
}
