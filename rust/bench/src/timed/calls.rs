//! The calls that resolve a list, in ten shapes.

use crate::library::{self, Library, BEFORE, NOW};
use crate::measure::{program, Program};
use crate::record::RECORD;
use crate::shapes::{Shape, SHAPES};
use crate::timed::same::{buffers, same, Counts, Writer};
use crate::timed::{
    how_many, Row, Who, BLOCK, COMPACT, PLAN, SHORT, SIZES, SMALL_PLAN, TIDY, VIEW,
};
use crate::yard::compact::{compact, Order};
use crate::yard::plan::read_plan;
use crate::yard::view::{tidy, view};
use crate::yard::{plain, tree, walk, Room};

/// One of the calls, over the whole chunk.
#[derive(Clone, Copy)]
enum Call {
    View,
    Tidy,
    Plan(u32),
    /// Of all records.
    Compact,
}

/// The chunk's.
const INDEX: u32 = 7;
const SMALL_BLOCK: u32 = 65_536;
const CALLS: [(Call, &str); 5] = [
    (Call::View, VIEW),
    (Call::Tidy, TIDY),
    (Call::Plan(BLOCK), PLAN),
    (Call::Plan(SMALL_BLOCK), SMALL_PLAN),
    (Call::Compact, COMPACT),
];

pub fn rows() -> Result<Vec<Row>, String> {
    let mut rows = Vec::new();
    for (call, name) in CALLS {
        let short: &[usize] = if matches!(call, Call::View) { &SHORT } else { &[] };
        for records in short.iter().chain(&SIZES) {
            for shape in &SHAPES {
                rows.extend(row(call, name, shape, *records)?);
            }
        }
    }
    Ok(rows)
}

/// A list, and how long its answer is.
struct Input {
    list: Vec<u8>,
    fits: usize,
}

/// None where all refuse a list: a tidied list of that shape would be too long.
fn row(
    call: Call,
    name: &'static str,
    shape: &Shape,
    records: usize,
) -> Result<Option<Row>, String> {
    let mut writers = writers(call);
    let mut inputs = Vec::new();
    for list in shape.lists(records, how_many(records)) {
        let counts = same(&list, &mut writers)
            .map_err(|what| format!("{name}, {}, {records} records: {what}", shape.name))?;
        match counts {
            Some((fits, _)) => inputs.push(Input { list, fits }),
            None if matches!(call, Call::Tidy) => return Ok(None),
            None => return Err(format!("{name}, {}, {records} records: refused", shape.name)),
        }
    }
    let mut programs: Vec<(Who, Program<Input>)> =
        writers.into_iter().map(|(who, write)| (who, spare(write))).collect();
    programs.push((Who::Fits, fitting(by_library(NOW, call))));
    Ok(Some(Row::timed((name, shape.name, records), &inputs, programs)))
}

/// With room to spare.
fn spare<'a>(mut write: Writer) -> Program<'a, Input> {
    let (mut out, mut other) = buffers();
    program(move |input: &Input| write(&input.list, &mut out, &mut other))
}

/// Into a buffer that just fits.
fn fitting<'a>(mut write: Writer) -> Program<'a, Input> {
    let (mut out, mut other) = buffers();
    program(move |input: &Input| write(&input.list, &mut out[..input.fits], &mut other))
}

fn writers(call: Call) -> Vec<(Who, Writer)> {
    let mut writers = vec![(Who::Now, by_library(NOW, call)), (Who::Best, by_best(call))];
    if let (Some(library), Call::View | Call::Tidy) = (BEFORE, call) {
        writers.push((Who::Before, by_library(library, call)));
    }
    if let Call::View = call {
        let others: [(Who, View); 3] =
            [(Who::Plain, plain::view), (Who::Tree, tree::view), (Who::Walk, walk::view)];
        writers.extend(others.map(|(who, view)| (who, by_rust(view))));
    }
    writers
}

type View = fn(&[u8], &mut Room, &mut [u8]) -> Option<usize>;

fn by_rust(view: View) -> Writer {
    let mut room = Room::new();
    Box::new(move |list, out, _| first(view(list, &mut room, out)))
}

fn first(count: Option<usize>) -> Counts {
    Some((count?, 0))
}

fn all(list: &[u8]) -> Order {
    Order { index: INDEX, block_size: BLOCK, k: list.len() / RECORD, new_id: 77 }
}

fn by_library(library: Library, call: Call) -> Writer {
    match call {
        Call::View => Box::new(move |list, out, _| first(library.view(list, out))),
        Call::Tidy => Box::new(move |list, out, _| first(library.tidy(list, out))),
        Call::Plan(size) => {
            Box::new(move |list, out, _| first(library::read_plan(list, INDEX, size, out)))
        }
        Call::Compact => {
            Box::new(move |list, out, other| library::compact(list, all(list), out, other))
        }
    }
}

fn by_best(call: Call) -> Writer {
    let mut room = Room::new();
    match call {
        Call::View => by_rust(view),
        Call::Tidy => by_rust(tidy),
        Call::Plan(size) => {
            Box::new(move |list, out, _| first(read_plan(list, INDEX, size, &mut room, out)))
        }
        Call::Compact => {
            Box::new(move |list, out, other| compact(list, all(list), &mut room, out, other))
        }
    }
}
