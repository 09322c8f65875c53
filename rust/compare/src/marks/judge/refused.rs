//! Plans of refused reads: right ones, wrong ones and empty ones.

use second::{judge, Judged};

use crate::call::Call;
use crate::mended;
use crate::tally::Tally;

const RIGHT: &str = "judge, refused, right plan";
const WRONG: &str = "judge, refused, wrong plan";
const EMPTY: &str = "judge, refused, empty plan";

/// A plan of no list is not right.
const MET: [(&str, &[u64]); 3] = [
    (RIGHT, &[8, 1, 2, 3, 4, 5, 6, 16]),
    (WRONG, &[21, 8, 1, 2, 3, 4, 5, 6, 16]),
    (EMPTY, &[21, 8, 1, 2, 3, 4, 5, 6, 16]),
];

pub fn count(tally: &mut Tally, call: &Call, refusal: u64) {
    if refusal != 0 {
        if let Some(name) = kind(call) {
            tally.mark(name, call.name(), refusal);
        }
    }
}

/// Right is what the mended read accepts.
fn kind(call: &Call) -> Option<&'static str> {
    let Call::JudgePlan { file, block_size, start, count, plan } = call else {
        return None;
    };
    if plan.is_empty() {
        return Some(EMPTY);
    }
    let accepted = mended::of(file, *block_size).is_some_and(|(file, block_size)| {
        judge(&file.file(), block_size, *start, *count, plan) == Ok(Judged::Accepted)
    });
    Some(if accepted { RIGHT } else { WRONG })
}

pub fn missed(tally: &Tally) -> impl Iterator<Item = String> + '_ {
    let pairs = MET.into_iter().flat_map(|(name, met)| met.iter().map(move |met| (name, *met)));
    let missed = pairs.filter(|(name, met)| tally.counted(name, "judge_plan", *met as usize) == 0);
    missed.map(|(name, met)| format!("no judge_plan is {name} and gives {met}"))
}
