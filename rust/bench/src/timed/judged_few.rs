//! Plans of few pieces, judged: our own of short lists, beside the check and that plan.

use crate::elsewhere::Order;
use crate::files::File;
use crate::measure::{program, Program};
use crate::record::PIECE;
use crate::shapes::{Shape, SHAPES};
use crate::timed::judged::same;
use crate::timed::{how_many, Row, Who, BLOCK, JUDGED_FEW};
use crate::yard::judge::Judge;

/// Records of each list.
pub const RECORDS: usize = 10;
const ORDERS: [Order; 2] = [Order::Rising, Order::Reversed];

struct Input {
    file: File,
    plan: Vec<u8>,
}

pub fn rows() -> Result<Vec<Row>, String> {
    let mut rows = Vec::new();
    for (call, order) in JUDGED_FEW.into_iter().zip(ORDERS) {
        for shape in &SHAPES {
            rows.push(row(call, order, shape)?);
        }
    }
    Ok(rows)
}

fn row(call: &'static str, order: Order, shape: &Shape) -> Result<Row, String> {
    let lists = shape.lists(RECORDS, how_many(RECORDS));
    let inputs: Option<Vec<Input>> = lists.chunks(1).map(|list| input(list, order)).collect();
    let inputs = inputs.ok_or_else(|| format!("{call}, {}: refused", shape.name))?;
    let mut judge = Judge::new();
    if !inputs.iter().all(|input| same(&input.file, &input.plan, &mut judge)) {
        return Err(format!("{call}, {}: another verdict", shape.name));
    }
    let mut out = File::buffer(RECORDS, BLOCK);
    let programs: Vec<(Who, Program<Input>)> = vec![
        (Who::Now, program(|i: &Input| i.file.judge(BLOCK, &i.plan))),
        (Who::Checks, program(|i: &Input| i.file.checks())),
        (Who::Plan, program(move |i: &Input| i.file.plan(BLOCK, &mut out))),
    ];
    Ok(Row::timed((call, shape.name, RECORDS), &inputs, programs))
}

fn input(list: &[Vec<u8>], order: Order) -> Option<Input> {
    let file = File::new(list);
    let mut out = File::buffer(RECORDS, BLOCK);
    let count = file.plan(BLOCK, &mut out)?;
    let pieces = out[..count].as_chunks::<PIECE>().0.to_vec();
    Some(Input { file, plan: order.plan(pieces) })
}
