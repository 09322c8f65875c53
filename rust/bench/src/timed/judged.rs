//! Plans of many pieces, judged: in three orders, beside the same pieces in order, our own plan, and
//! the same in Rust.

use ezumokarin::Judged;
use rng::Rng;

use crate::elsewhere::{cut, Order, Spread};
use crate::files::{File, LISTS};
use crate::measure::{program, Program};
use crate::record::{place, PieceBytes, PIECE};
use crate::shapes::{Shape, SHAPES};
use crate::timed::{how_many, Row, Who, BLOCK, JUDGED};
use crate::yard::judge::Judge;

/// Records of each list.
pub const RECORDS: usize = 2_000;
/// Numbers of pieces.
pub const PIECES: [usize; 2] = [1_000, 100_000];
pub const ORDERS: [Order; 3] = [Order::Rising, Order::Reversed, Order::Shuffled];

/// A read of whole chunks.
struct Read {
    name: &'static str,
    shape: &'static Shape,
    chunks: usize,
    spread: Spread,
}

/// Of lists with few pieces, and of lists with many; and cut in crowds, or unevenly.
fn reads() -> [Read; 8] {
    let [random, _, _, tiny, ..] = &SHAPES;
    let even = |name, shape, chunks| Read { name, shape, chunks, spread: Spread::Even };
    let crowded = |name, shape, chunks| Read { name, shape, chunks, spread: Spread::Crowded };
    let uneven = |name, shape, chunks| Read { name, shape, chunks, spread: Spread::Uneven };
    [
        even("one chunk, random", random, 1),
        even("16 chunks, random", random, LISTS),
        even("one chunk, tiny overwrites", tiny, 1),
        even("16 chunks, tiny overwrites", tiny, LISTS),
        crowded("one chunk, random, cut in crowds", random, 1),
        crowded("16 chunks, random, cut in crowds", random, LISTS),
        uneven("one chunk, random, cut unevenly", random, 1),
        uneven("16 chunks, random, cut unevenly", random, LISTS),
    ]
}

struct Input {
    file: File,
    in_order: Vec<u8>,
    plan: Vec<u8>,
}

pub fn rows() -> Result<Vec<Row>, String> {
    let mut rows = Vec::new();
    for read in reads() {
        for (calls, pieces) in JUDGED.into_iter().zip(PIECES) {
            for (call, order) in calls.into_iter().zip(ORDERS) {
                rows.extend(row(call, pieces, order, &read)?);
            }
        }
    }
    Ok(rows)
}

/// None where our own plan has more pieces.
fn row(
    call: &'static str,
    pieces: usize,
    order: Order,
    read: &Read,
) -> Result<Option<Row>, String> {
    let lists = read.shape.lists(RECORDS, read.chunks * how_many(pieces));
    let mut rng = Rng::new(pieces as u64);
    let inputs =
        lists.chunks(read.chunks).map(|lists| input(lists, (pieces, read.spread), order, &mut rng));
    let Some(inputs) = inputs.collect::<Option<Vec<Input>>>() else { return Ok(None) };
    let mut judge = Judge::new();
    if !inputs.iter().all(|input| same(&input.file, &input.plan, &mut judge)) {
        return Err(format!("{call}, {}: another verdict", read.name));
    }
    let mut out = File::buffer(RECORDS, BLOCK);
    let mut programs: Vec<(Who, Program<Input>)> = vec![
        (Who::Now, program(|i: &Input| i.file.judge(BLOCK, &i.plan))),
        (Who::Best, program(move |i: &Input| i.file.judge_in_rust(BLOCK, &i.plan, &mut judge))),
        (Who::Plan, program(move |i: &Input| i.file.plan(BLOCK, &mut out))),
    ];
    if order != Order::Rising {
        programs.push((Who::InOrder, program(|i: &Input| i.file.judge(BLOCK, &i.in_order))));
    }
    Ok(Some(Row::timed((call, read.name, RECORDS), &inputs, programs)))
}

fn input(
    lists: &[Vec<u8>],
    (pieces, spread): (usize, Spread),
    order: Order,
    rng: &mut Rng,
) -> Option<Input> {
    let file = File::new(lists);
    let mut out = File::buffer(RECORDS, BLOCK);
    let count = file.plan(BLOCK, &mut out)?;
    let cut = cut(&out[..count], pieces, spread, rng)?;
    Some(Input { file, in_order: Order::Rising.plan(cut.clone()), plan: order.plan(cut) })
}

/// Whether archive and Rust both accept a plan, and see a piece left out and one of another slice.
pub fn same(file: &File, plan: &[u8], judge: &mut Judge) -> bool {
    let (pieces, _) = plan.as_chunks::<PIECE>();
    let number = pieces.len() / 2;
    let left_out: Vec<PieceBytes> = [&pieces[..number], &pieces[number + 1..]].concat();
    let mut wrong = plan.to_vec();
    wrong[number * PIECE + 17] ^= 1;
    let mut said = |plan: &[u8], verdict: Judged| {
        let by_rust = file.judge_in_rust(BLOCK, plan, judge);
        by_rust == Some(verdict) && file.judge(BLOCK, plan) == by_rust
    };
    said(plan, Judged::Accepted)
        && said(left_out.as_flattened(), Judged::WrongByte(place(&pieces[number]).into()))
        && said(&wrong, Judged::WrongPiece(number as u64))
}
