//! A plan across 16 chunks, beside the plans of the chunks one by one.

use crate::files::{moved, File, LISTS};
use crate::measure::{program, Program};
use crate::shapes::{Shape, SHAPES};
use crate::timed::{how_many, Row, Who, FILES};

/// Records of each list.
pub const RECORDS: usize = 2_000;
const BLOCKS: [u32; 2] = [4_194_304, 65_536];

pub fn rows() -> Result<Vec<Row>, String> {
    let mut rows = Vec::new();
    for (block_size, call) in BLOCKS.into_iter().zip(FILES) {
        for shape in &SHAPES {
            rows.push(row(call, shape, block_size)?);
        }
    }
    Ok(rows)
}

fn row(call: &'static str, shape: &Shape, block_size: u32) -> Result<Row, String> {
    let lists = shape.lists(RECORDS, LISTS * how_many(RECORDS));
    let mut files: Vec<File> = lists.chunks(LISTS).map(File::new).collect();
    for file in &mut files {
        file.fits = same(file, block_size)
            .ok_or_else(|| format!("{call}, {}: not the plans of its chunks", shape.name))?;
    }
    let spare = || File::buffer(RECORDS, block_size);
    let (mut out, mut fitting, mut singles) = (spare(), spare(), spare());
    let programs: Vec<(Who, Program<File>)> = vec![
        (Who::Now, program(move |file: &File| file.plan(block_size, &mut out))),
        (Who::Fits, program(move |file: &File| file.plan(block_size, &mut fitting[..file.fits]))),
        (Who::Singles, program(move |file: &File| file.plans(block_size, &mut singles))),
    ];
    Ok(Row::timed((call, shape.name, RECORDS), &files, programs))
}

/// The length of the plan, if it is that of the chunks' own plans, in any buffer.
pub fn same(file: &File, block_size: u32) -> Option<usize> {
    let (mut out, mut singles) =
        (File::buffer(RECORDS, block_size), File::buffer(RECORDS, block_size));
    let count = file.plan(block_size, &mut out)?;
    let all = file.plans(block_size, &mut singles)?;
    moved(&mut singles[..all]);
    let mut fitting = vec![0; count];
    let fits = file.plan(block_size, &mut fitting)? == count && fitting == out[..count];
    (fits && out == singles).then_some(count)
}
