//! `ezk_added` beside the two checks that it makes first.

use crate::history::{added, checks, Part};
use crate::measure::{program, Program};
use crate::orders::{ordered, ORDERS};
use crate::pairs::{Change, Pair};
use crate::record::RECORD;
use crate::shapes::SHAPES;
use crate::timed::{how_many, Row, Who, ADDED};

/// Numbers of records of the older list.
pub const LENGTHS: [usize; 6] = [1, 5, 10, 50, 200, 2_000];

const CHANGES: [Change; 4] = [Change::Added, Change::Equal, Change::First, Change::Last];

/// Orders of ids under names that no shape has. The ids of the shapes rise.
const BY_IDS: [(&str, &str); 5] = [
    ("ids rising", ORDERS[0]),
    ("ids rising but for the first", ORDERS[1]),
    ("ids repeated", ORDERS[2]),
    ("ids random", ORDERS[3]),
    ("ids alike in 53 bits", ORDERS[4]),
];

pub fn rows() -> Result<Vec<Row>, String> {
    let mut rows = Vec::new();
    for (change, call) in CHANGES.into_iter().zip(ADDED) {
        for records in LENGTHS {
            for (name, lists) in lists(records + 1) {
                let pairs = lists.into_iter().map(|list| change.pair(list)).collect();
                rows.push(row((call, name, records), pairs)?);
            }
        }
    }
    Ok(rows)
}

/// Lists of so many records, of each shape and order of ids.
fn lists(records: usize) -> impl Iterator<Item = (&'static str, Vec<Vec<u8>>)> {
    let shapes =
        SHAPES.iter().map(move |shape| (shape.name, shape.lists(records, how_many(records))));
    let ids = BY_IDS.iter().map(move |(name, order)| (*name, vec![ordered(order, records)]));
    shapes.chain(ids)
}

fn row(name: (&'static str, &'static str, usize), pairs: Vec<Pair>) -> Result<Row, String> {
    for pair in &pairs {
        let answers = (checks(&pair.older, &pair.newer), added(&pair.older, &pair.newer));
        if answers != (Some(records(pair)), expected(pair)) {
            return Err(format!("{name:?}: {answers:?}"));
        }
    }
    let programs: Vec<(Who, Program<Pair>)> = vec![
        (Who::Now, program(|pair: &Pair| added(&pair.older, &pair.newer))),
        (Who::Checks, program(|pair: &Pair| checks(&pair.older, &pair.newer))),
    ];
    Ok(Row::timed(name, &pairs, programs))
}

fn records(pair: &Pair) -> (u64, u64) {
    let records = |list: &[u8]| (list.len() / RECORD) as u64;
    (records(&pair.older), records(&pair.newer))
}

/// What is new, of two acceptable lists.
pub fn expected(pair: &Pair) -> Part {
    let rewritten = !pair.newer.starts_with(&pair.older);
    let offset = if rewritten { 0 } else { pair.older.len() };
    let length = (pair.newer.len() - offset) as u64;
    Part { refusal: 0, place: 0, rewritten: rewritten.into(), offset: offset as u64, length }
}
