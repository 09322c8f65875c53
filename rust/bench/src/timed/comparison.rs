//! The comparison of two lists alone, beside the one of Rust's standard library.

use crate::history::{Comparison, COMPARISON};
use crate::measure::{program, Program};
use crate::pairs::{Change, Pair};
use crate::shapes::SHAPES;
use crate::timed::{how_many, Row, Who, BEGINS};

/// Numbers of records of the older list.
pub const LENGTHS: [usize; 8] = [1, 2, 5, 10, 20, 50, 200, 2_000];

/// Where the lists first differ.
pub const PLACES: [&str; 4] = ["nowhere", "first byte", "in the middle", "last byte"];

/// None where the comparison isn't linked.
pub fn rows() -> Result<Vec<Row>, String> {
    let Some(comparison) = COMPARISON else { return Ok(Vec::new()) };
    let mut rows = Vec::new();
    for records in LENGTHS {
        for place in PLACES {
            rows.push(row(comparison, place, records)?);
        }
    }
    Ok(rows)
}

fn row(comparison: Comparison, place: &'static str, records: usize) -> Result<Row, String> {
    let [shape, ..] = &SHAPES;
    let lists = shape.lists(records + 1, how_many(records));
    let pairs: Vec<Pair> = lists.into_iter().map(|list| differing(list, place)).collect();
    for pair in &pairs {
        let begins = comparison.begins(&pair.older, &pair.newer);
        if begins != pair.newer.starts_with(&pair.older) || begins != (place == "nowhere") {
            return Err(format!("comparison, {place}, {records} records: {begins}"));
        }
    }
    let programs: Vec<(Who, Program<Pair>)> = vec![
        (Who::Now, program(move |pair: &Pair| comparison.begins(&pair.older, &pair.newer))),
        (Who::Best, program(|pair: &Pair| pair.newer.starts_with(&pair.older))),
    ];
    Ok(Row::timed((BEGINS, place, records), &pairs, programs))
}

/// The newer list has one record more, and one bit is another. The comparison makes no checks.
fn differing(list: Vec<u8>, place: &str) -> Pair {
    let mut pair = Change::Added.pair(list);
    let at = match place {
        "nowhere" => return pair,
        "first byte" => 0,
        "in the middle" => pair.older.len() / 2,
        _ => pair.older.len() - 1,
    };
    pair.newer[at] ^= 1;
    pair
}
