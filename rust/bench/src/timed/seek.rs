//! Seeking random positions in views.

use rng::Rng;

use crate::library::{find, NOW};
use crate::measure::{program, Program};
use crate::record::CHUNK;
use crate::shapes::{Shape, SHAPES};
use crate::timed::same::buffers;
use crate::timed::{Row, Who, FIND, SIZES};
use crate::yard::seek::{halve, row as row_of, walk};

const POSITIONS: usize = 4_096;

pub fn rows() -> Result<Vec<Row>, String> {
    let mut rows = Vec::new();
    for records in SIZES {
        for shape in &SHAPES {
            rows.push(row(shape, records)?);
        }
    }
    Ok(rows)
}

fn row(shape: &Shape, records: usize) -> Result<Row, String> {
    let view = view(shape, records).ok_or("no view to seek in")?;
    let row = row_of(&view);
    let mut rng = Rng::new(records as u64);
    let positions: Vec<u32> = (0..POSITIONS).map(|_| rng.below(u64::from(CHUNK)) as u32).collect();
    for position in &positions {
        let found = find(&view, *position);
        if found.is_none() || found != walk(&view, *position) || found != halve(&row, *position) {
            return Err(format!("find, {}, {records} records: {position}", shape.name));
        }
    }
    let programs: Vec<(Who, Program<u32>)> = vec![
        (Who::Now, program(|position| find(&view, *position))),
        (Who::Walk, program(|position| walk(&view, *position))),
        (Who::Best, program(|position| halve(&row, *position))),
    ];
    Ok(Row::timed((FIND, shape.name, records), &positions, programs))
}

fn view(shape: &Shape, records: usize) -> Option<Vec<u8>> {
    let (mut out, _) = buffers();
    let count = NOW.view(shape.lists(records, 1).first()?, &mut out)?;
    out.truncate(count);
    Some(out)
}
