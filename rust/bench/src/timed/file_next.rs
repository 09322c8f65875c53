//! The next piece of a read of 16 chunks at random places, beside calls on the single lists.

use rng::Rng;

use crate::files::pieces::alike;
use crate::files::{File, LISTS};
use crate::measure::{program, Program};
use crate::record::CHUNK;
use crate::shapes::{Shape, SHAPES};
use crate::timed::{how_many, Row, Who, BLOCK, FILE_NEXT};

/// Records of each list.
pub const RECORDS: usize = 200;
/// Places in each file.
const PLACES: usize = 4;

struct Input<'a> {
    file: &'a File,
    at: u32,
}

pub fn rows() -> Result<Vec<Row>, String> {
    SHAPES.iter().map(row).collect()
}

fn row(shape: &Shape) -> Result<Row, String> {
    let lists = shape.lists(RECORDS, LISTS * how_many(RECORDS));
    let files: Vec<File> = lists.chunks(LISTS).map(File::new).collect();
    let mut rng = Rng::new(LISTS as u64);
    let mut place = || rng.below(LISTS as u64 * u64::from(CHUNK)) as u32;
    let places = |file| [(); PLACES].map(|()| Input { file, at: place() });
    let inputs: Vec<Input> = files.iter().flat_map(places).collect();
    for Input { file, at } in &inputs {
        if !same(file, *at, RECORDS) {
            return Err(format!("{FILE_NEXT}, {}: not the piece of its chunk", shape.name));
        }
    }
    let programs: Vec<(Who, Program<Input>)> = vec![
        (Who::Now, program(|i: &Input| i.file.next_piece(BLOCK, i.at).next)),
        (
            Who::Singles,
            program(|i: &Input| i.file.next_of_one(BLOCK, i.at).map(|(piece, _)| piece.next)),
        ),
        (Who::Checks, program(|i: &Input| i.file.checks())),
    ];
    Ok(Row::timed((FILE_NEXT, shape.name, RECORDS), &inputs, programs))
}

/// Whether the file's piece is that of its chunk, and the checks counted the records of each list.
pub fn same(file: &File, at: u32, records: usize) -> bool {
    let all = (LISTS * records) as u64;
    file.checks() == Some(all)
        && file.next_of_one(BLOCK, at).is_some_and(|(piece, others)| {
            others == all - records as u64 && alike(&file.next_piece(BLOCK, at), &piece, at / CHUNK)
        })
}
