//! Kinds of accepted plans.

use std::collections::HashSet;

use second::limits::PIECE;
use second::Judged;

use super::{Asked, Mark, MANY};

pub const MARKS: [Mark; 13] = [
    Mark { name: "judge, accepted", is: |a| a.is_accepted() },
    Mark { name: "judge, ours", is: |a| a.is_accepted() && a.pieces() > 1 && a.plan == a.ours },
    Mark { name: "judge, ours in other order", is: |a| a.is_ours_but_order() },
    Mark { name: "judge, shorter in order", is: |a| a.is_shorter() && a.rises() },
    Mark { name: "judge, shorter, falling", is: |a| a.is_shorter() && a.falls() },
    Mark { name: "judge, shorter, no order", is: |a| a.is_shorter() && a.in_no_order() },
    Mark { name: "judge, shorter RB", is: |a| a.is_shorter() && a.has_rest_of_object() },
    Mark { name: "judge, RB of records", is: |a| a.joins(b"RB") },
    Mark { name: "judge, RZ of records", is: |a| a.joins(b"RZ") },
    Mark { name: "judge, of three chunks", is: |a| a.is_accepted() && a.chunks() > 2 },
    Mark { name: "judge, many pieces", is: |a| a.is_many(MANY) && a.rises() },
    Mark { name: "judge, 5,000 in no order", is: |a| a.is_many(5_000) && a.in_no_order() },
    Mark { name: "judge, nothing of nothing", is: |a| a.is_accepted() && a.length == 0 },
];

impl Asked<'_> {
    fn is_accepted(&self) -> bool {
        self.said == Judged::Accepted
    }

    /// As many pieces as ours, so they are ours.
    fn is_ours_but_order(&self) -> bool {
        self.is_accepted() && self.plan != self.ours && self.plan.len() == self.ours.len()
    }

    fn is_shorter(&self) -> bool {
        self.is_accepted() && self.plan.len() > self.ours.len()
    }

    fn is_many(&self, pieces: usize) -> bool {
        self.is_accepted() && self.pieces() > pieces
    }

    fn chunks(&self) -> usize {
        self.numbers(2).collect::<HashSet<_>>().len()
    }

    /// A piece of an object starts where none of ours does.
    fn has_rest_of_object(&self) -> bool {
        let starts: HashSet<_> = self.ours.chunks(PIECE).map(|bytes| &bytes[6..10]).collect();
        let mut objects = self.plan.chunks(PIECE).filter(|bytes| bytes.starts_with(b"RB"));
        objects.any(|bytes| !starts.contains(&bytes[6..10]))
    }
}
