//! A refusal: its number, and the place of the record for 3 to 6 and 16.

#[derive(Clone, Copy, Debug, PartialEq, Eq)]
pub struct Refusal {
    pub number: u64,
    pub place: u64,
}

impl Refusal {
    /// A refusal that speaks of no record.
    pub fn of(number: u64) -> Refusal {
        Refusal { number, place: 0 }
    }

    /// A refusal of the record at `place`, counted from 0.
    pub fn at(number: u64, place: usize) -> Refusal {
        Refusal { number, place: place as u64 }
    }
}
