//! A piece that joins all records of its list and the holes between them, beside the read plan,
//! which is that piece.

use crate::library::read_plan;
use crate::measure::{program, Program};
use crate::pieces::{next_piece, INDEX};
use crate::record::{CHUNK, PIECE};
use crate::timed::same::buffers;
use crate::timed::{how_many, Row, Who, BLOCK, JOINED, SIZES};
use crate::yard::{next, Room};
use crate::zeros::{zeros, TURNS};

pub fn rows() -> Result<Vec<Row>, String> {
    let mut rows = Vec::new();
    for records in SIZES {
        for turn in TURNS {
            rows.push(row(turn, records)?);
        }
    }
    Ok(rows)
}

fn row(turn: &'static str, records: usize) -> Result<Row, String> {
    let lists = zeros(turn, records, how_many(records));
    let mut room = Room::new();
    let (mut out, _) = buffers();
    for list in &lists {
        let piece = next_piece(list, BLOCK, 0);
        let by_rust = next::next_piece(list, INDEX, BLOCK, 0, &mut room);
        let plan = read_plan(list, INDEX, BLOCK, &mut out);
        if by_rust != Some(piece) || piece.len != u64::from(CHUNK) || plan != Some(PIECE) {
            return Err(format!("{JOINED}, {turn}, {records} records: {piece:?}"));
        }
    }
    let programs: Vec<(Who, Program<Vec<u8>>)> = vec![
        (Who::Now, program(|list: &Vec<u8>| next_piece(list, BLOCK, 0).next)),
        (
            Who::Best,
            program(move |list: &Vec<u8>| {
                next::next_piece(list, INDEX, BLOCK, 0, &mut room).map(|piece| piece.next)
            }),
        ),
        (Who::Plan, program(move |list: &Vec<u8>| read_plan(list, INDEX, BLOCK, &mut out))),
    ];
    Ok(Row::timed((JOINED, turn, records), &lists, programs))
}
