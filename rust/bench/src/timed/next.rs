//! The next piece at random places, beside the check, the same in Rust, and the whole plan.

use rng::Rng;

use crate::library::read_plan;
use crate::measure::{program, Program};
use crate::pieces::{check, next_piece, INDEX};
use crate::record::CHUNK;
use crate::shapes::{Shape, SHAPES};
use crate::timed::same::buffers;
use crate::timed::{how_many, Row, Who, BLOCK, NEXT};
use crate::yard::{next, Room};

/// Numbers of records.
pub const LENGTHS: [usize; 4] = [1, 10, 200, 2_000];
/// Places in each list.
const PLACES: usize = 8;

/// A list and a place in the read of the whole chunk.
struct Input<'a> {
    list: &'a [u8],
    at: u32,
}

pub fn rows() -> Result<Vec<Row>, String> {
    let mut rows = Vec::new();
    for records in LENGTHS {
        for shape in &SHAPES {
            rows.push(row(shape, records)?);
        }
    }
    Ok(rows)
}

fn row(shape: &Shape, records: usize) -> Result<Row, String> {
    let lists = shape.lists(records, how_many(records));
    let inputs = inputs(&lists);
    let mut room = Room::new();
    for Input { list, at } in &inputs {
        let by_rust = next::next_piece(list, INDEX, BLOCK, *at, &mut room);
        if by_rust != Some(next_piece(list, BLOCK, *at)) || check(list) != Some(records as u64) {
            return Err(format!("{NEXT}, {}, {records} records, place {at}", shape.name));
        }
    }
    let (mut out, _) = buffers();
    let programs: Vec<(Who, Program<Input>)> = vec![
        (Who::Now, program(|i: &Input| next_piece(i.list, BLOCK, i.at).next)),
        (Who::Checks, program(|i: &Input| check(i.list))),
        (
            Who::Best,
            program(move |i: &Input| {
                next::next_piece(i.list, INDEX, BLOCK, i.at, &mut room).map(|piece| piece.next)
            }),
        ),
        (Who::Plan, program(move |i: &Input| read_plan(i.list, INDEX, BLOCK, &mut out))),
    ];
    Ok(Row::timed((NEXT, shape.name, records), &inputs, programs))
}

/// Random places whose piece is part of one record, or of one hole.
fn inputs(lists: &[Vec<u8>]) -> Vec<Input<'_>> {
    let mut rng = Rng::new(lists.len() as u64);
    let mut inputs = Vec::new();
    for list in lists {
        let places = std::iter::repeat_with(|| rng.below(CHUNK.into()) as u32);
        let ordinary = places.take(4 * PLACES).filter(|at| !next::joined(list, BLOCK, *at));
        inputs.extend(ordinary.take(PLACES).map(|at| Input { list, at }));
    }
    inputs
}
