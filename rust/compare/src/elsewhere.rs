//! Plans made elsewhere: ours in other cuts and orders, and what else a tablet may send. Each is made
//! of a call that plans the whole read.

mod cut;
mod many;
mod row;
mod spoil;
mod whole;
mod wrong;

use second::file_plan_bytes;
use second::limits::PIECE;

use crate::call::Call;
use crate::joined::Joined;
use crate::{mended, most, places};
use rng::Rng;
use row::Row;

pub use cut::{cut, shuffle};
pub use row::rows;
pub use spoil::join;

/// Has a plan of a planned read judged instead.
pub fn judged(rng: &mut Rng, mut planned: Call) -> Call {
    let many = rng.once_in(100);
    // A refusal hides what would be said of the plan.
    if many || rng.once_in(2) {
        mend(&mut planned);
    }
    let plan = if many {
        many::widen(rng, &mut planned);
        many::plan(rng, &planned)
    } else {
        if rng.once_in(3) {
            places::widen(rng, &mut planned);
        }
        of_few(rng, &planned)
    };
    asked(&planned, plan).expect("a planned read")
}

fn mend(planned: &mut Call) {
    if let Call::FilePlan { file, block_size, .. } = planned {
        if let Some(mended) = mended::of(file, *block_size) {
            (*file, *block_size) = mended;
        }
    }
}

/// The call that has this plan judged; none where no read across chunks is planned.
pub fn asked(planned: &Call, plan: Vec<u8>) -> Option<Call> {
    match planned.clone() {
        Call::FilePlan { file, block_size, start, count, .. } => {
            Some(Call::JudgePlan { file, block_size, start, count, plan })
        }
        _ => None,
    }
}

/// Our plan of a planned read. Of a refused one it is that of the mended read or, where it can't be
/// mended, one of zeros.
pub fn ours(planned: &Call) -> Vec<u8> {
    let (Call::FilePlan { file, block_size, start, count, .. }
    | Call::JudgePlan { file, block_size, start, count, .. }) = planned
    else {
        return Vec::new();
    };
    let plan = |file: &Joined, size| file_plan_bytes(&file.file(), size, *start, *count);
    plan(file, *block_size).unwrap_or_else(|_| match mended::of(file, *block_size) {
        Some((file, size)) => plan(&file, size).expect("a plan"),
        None => row::zeros(file.first_index as u32, most::read(planned)).to_vec(),
    })
}

fn of_few(rng: &mut Rng, planned: &Call) -> Vec<u8> {
    let whole = if rng.once_in(12) { whole::other(rng, planned) } else { ours(planned) };
    let mut rows = some_cut(rng, &whole);
    for _ in 0..rng.pick(&[0, 0, 1, 1, 2]) {
        spoil::one(rng, &mut rows);
    }
    order(rng, &mut rows);
    let mut plan = rows.concat();
    whole::spoil(rng, &mut plan);
    plan
}

/// As it is, or with some pieces cut: in two or three, or into single bytes.
fn some_cut(rng: &mut Rng, plan: &[u8]) -> Vec<Row> {
    let most = plan.len() / PIECE + rng.pick(&[0, 1, 4, 40]);
    let longest = rng.pick(&[1, 4, 100, u64::MAX]);
    cut(rng, plan, most, longest)
}

fn order(rng: &mut Rng, rows: &mut [Row]) {
    match rng.below(6) {
        0 => rows.reverse(),
        1 | 2 => shuffle(rng, rows),
        3 if !rows.is_empty() => {
            let first = rng.below(rows.len() as u64) as usize;
            rows.rotate_left(first);
        }
        _ => {}
    }
}
