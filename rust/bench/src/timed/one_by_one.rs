//! All pieces of a read, one by one, beside the read plan.

use crate::library::read_plan;
use crate::measure::{program, Program};
use crate::pieces::{bytes, one_by_one, INDEX};
use crate::record::PIECE;
use crate::shapes::{Shape, SHAPES};
use crate::timed::same::buffers;
use crate::timed::{how_many, Row, Who, BLOCK, ONE_BY_ONE};

pub const RECORDS: usize = 200;
/// Pieces of the sequential list: one a record, and what is left of the chunk.
pub const PIECES: usize = RECORDS + 1;

pub fn rows() -> Result<Vec<Row>, String> {
    let [_, sequential, ..] = &SHAPES;
    Ok(vec![row(sequential)?])
}

fn row(shape: &Shape) -> Result<Row, String> {
    let lists = shape.lists(RECORDS, how_many(RECORDS));
    let (mut out, _) = buffers();
    for list in &lists {
        let count = read_plan(list, INDEX, BLOCK, &mut out);
        let mut place = 0;
        let mut alike = true;
        let pieces = one_by_one(list, BLOCK, |piece| {
            alike &= out[place..].starts_with(&bytes(piece));
            place += PIECE;
        });
        if !alike || pieces != Some(PIECES) || count != Some(PIECES * PIECE) {
            return Err(format!("{ONE_BY_ONE}, {}: {pieces:?}, {count:?}", shape.name));
        }
    }
    let programs: Vec<(Who, Program<Vec<u8>>)> = vec![
        (Who::Now, program(|list: &Vec<u8>| one_by_one(list, BLOCK, |_| {}))),
        (Who::Plan, program(move |list: &Vec<u8>| read_plan(list, INDEX, BLOCK, &mut out))),
    ];
    Ok(Row::timed((ONE_BY_ONE, shape.name, RECORDS), &lists, programs))
}
