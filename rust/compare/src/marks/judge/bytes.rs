//! Kinds of plans of right pieces that don't hold each byte once.

use second::limits::CHUNK;
use second::Judged;

use super::{Asked, Mark, MANY};

pub const MARKS: [Mark; 19] = [
    Mark { name: "judge, byte missing", is: |a| a.missing().is_some() },
    Mark { name: "judge, byte doubled", is: |a| a.doubled().is_some() },
    Mark { name: "judge, in three or more", is: |a| a.held() > 2 },
    Mark { name: "judge, in over 4,096", is: |a| a.held() > 4_096 },
    Mark { name: "judge, empty plan", is: |a| a.missing().is_some() && a.plan.is_empty() },
    Mark {
        name: "judge, first byte missing",
        is: |a| a.missing() == Some(0) && !a.plan.is_empty(),
    },
    Mark { name: "judge, last byte missing", is: |a| a.is_last(a.missing()) },
    Mark { name: "judge, middle byte missing", is: |a| a.is_between(a.missing()) },
    Mark { name: "judge, first byte doubled", is: |a| a.doubled() == Some(0) },
    Mark { name: "judge, last byte doubled", is: |a| a.is_last(a.doubled()) },
    Mark { name: "judge, middle byte doubled", is: |a| a.is_between(a.doubled()) },
    Mark { name: "judge, missing, right sum", is: |a| a.missing().is_some() && a.sum_is_right() },
    Mark { name: "judge, doubled, right sum", is: |a| a.doubled().is_some() && a.sum_is_right() },
    Mark { name: "judge, missing, no order", is: |a| a.missing().is_some() && a.in_no_order() },
    Mark { name: "judge, doubled, no order", is: |a| a.doubled().is_some() && a.in_no_order() },
    Mark { name: "judge, missing behind many", is: |a| a.is_behind_many(a.missing()) },
    Mark { name: "judge, doubled behind many", is: |a| a.is_behind_many(a.doubled()) },
    Mark { name: "judge, missing past 64 MiB", is: |a| a.missing() > Some(CHUNK) },
    Mark { name: "judge, doubled past 64 MiB", is: |a| a.doubled() > Some(CHUNK) },
];

impl Asked<'_> {
    /// The place of a byte that is in no piece.
    fn missing(&self) -> Option<u64> {
        match self.said {
            Judged::WrongByte { place, pieces: 0 } => Some(place),
            _ => None,
        }
    }

    /// The place of a byte that is in several pieces.
    fn doubled(&self) -> Option<u64> {
        match self.said {
            Judged::WrongByte { place, pieces: 2.. } => Some(place),
            _ => None,
        }
    }

    /// In how many pieces the wrong byte is.
    fn held(&self) -> u64 {
        match self.said {
            Judged::WrongByte { pieces, .. } => pieces,
            _ => 0,
        }
    }

    fn is_last(&self, place: Option<u64>) -> bool {
        self.length > 1 && place == Some(self.length - 1)
    }

    fn is_between(&self, place: Option<u64>) -> bool {
        place.is_some_and(|place| (1..self.length - 1).contains(&place))
    }

    fn sum_is_right(&self) -> bool {
        self.numbers(30).sum::<u64>() == self.length
    }

    /// In no order, and so many pieces lie before the byte.
    fn is_behind_many(&self, place: Option<u64>) -> bool {
        let before = |place| self.numbers(6).filter(|at| *at < place).count();
        place.is_some_and(|place| before(place) > MANY) && self.in_no_order()
    }
}
