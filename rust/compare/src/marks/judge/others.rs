//! What else there is in a plan with a wrong piece: where it stands, and what would be said of the
//! others.

use std::cmp::Ordering;
use std::ops::RangeBounds;

use second::Judged;

use super::{four, Asked, Mark, MANY};

pub const MARKS: [Mark; 10] = [
    Mark { name: "judge, wrong piece", is: |a| a.number().is_some() },
    Mark { name: "judge, first is wrong", is: |a| a.number() == Some(0) && a.pieces() > 1 },
    Mark { name: "judge, last is wrong", is: last_is_wrong },
    Mark { name: "judge, wrong behind many", is: |a| a.number() > Some(MANY) },
    Mark { name: "judge, two are wrong", is: two_are_wrong },
    Mark { name: "judge, wrong beside all", is: |a| a.others == Some(Judged::Accepted) },
    Mark { name: "judge, gap before wrong", is: |a| others_at(a, ..1, Ordering::Less) },
    Mark { name: "judge, gap behind wrong", is: |a| others_at(a, ..1, Ordering::Greater) },
    Mark { name: "judge, doubled before wrong", is: |a| others_at(a, 2.., Ordering::Less) },
    Mark { name: "judge, doubled behind wrong", is: |a| others_at(a, 2.., Ordering::Greater) },
];

fn last_is_wrong(a: &Asked) -> bool {
    a.pieces() > 1 && a.number() == Some(a.pieces() - 1)
}

fn two_are_wrong(a: &Asked) -> bool {
    matches!(a.others, Some(Judged::WrongPiece { .. }))
}

/// Of the others a byte would be named that so many of them hold, on this side of the wrong piece.
fn others_at(a: &Asked, held: impl RangeBounds<u64>, side: Ordering) -> bool {
    let Some(Judged::WrongByte { place, pieces }) = a.others else {
        return false;
    };
    let wrong = a.wrong_bytes();
    wrong.len() > 9 && held.contains(&pieces) && place.cmp(&four(wrong, 6)) == side
}
