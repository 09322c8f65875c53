//! Older and newer lists.

use crate::history::added;
use crate::orders::{ordered, ORDERS};
use crate::pairs::{Change, Pair};
use crate::shapes::SHAPES;
use crate::timed::added::expected;

/// Of all shapes and orders of ids.
fn pairs(change: Change) -> Vec<Pair> {
    let lengths = [2, 3, 6, 11, 51, 201, 2_001];
    let shaped = SHAPES.iter().flat_map(|shape| lengths.map(|n| shape.lists(n, 1).remove(0)));
    let by_ids = ORDERS.iter().flat_map(|order| lengths.map(|n| ordered(order, n)));
    shaped.chain(by_ids).map(|list| change.pair(list)).collect()
}

fn first_difference(pair: &Pair) -> Option<usize> {
    pair.older.iter().zip(&pair.newer).position(|(one, other)| one != other)
}

#[test]
fn pairs_pass_the_checks_and_differ_in_one_byte_at_most() {
    for (change, more) in
        [(Change::Added, 1), (Change::Equal, 0), (Change::First, 1), (Change::Last, 1)]
    {
        for pair in pairs(change) {
            let records = second::check(&pair.older).expect("a list");
            assert_eq!(second::check(&pair.newer), Ok(records + more), "{change:?}");
            let differing = pair.older.iter().zip(&pair.newer).filter(|(a, b)| a != b).count();
            let place = match change {
                Change::Added | Change::Equal => None,
                Change::First => Some(0),
                Change::Last => Some(pair.older.len() - 1),
            };
            assert_eq!((first_difference(&pair), differing), (place, place.iter().count()));
        }
    }
}

#[test]
fn what_was_added_is_what_stands_behind_the_older_list() {
    for change in [Change::Added, Change::Equal, Change::First, Change::Last] {
        for pair in pairs(change) {
            assert_eq!(added(&pair.older, &pair.newer), expected(&pair), "{change:?}");
            let back = Pair { older: pair.newer, newer: pair.older };
            assert_eq!(added(&back.older, &back.newer), expected(&back), "{change:?}, back");
        }
    }
}
