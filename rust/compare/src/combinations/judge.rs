//! Judged plans: every set of faults, with a plan that would be accepted, none, and a wrong one.

use super::{block_size, expect, files, sets};
use crate::call::{Call, Room};
use crate::elsewhere::{asked, ours};
use crate::tally::Tally;

pub fn judge_plan(tally: &mut Tally, variant: usize) {
    for faults in sets(&[21, 8, 1, 2, 3, 4, 5, 6, 16]) {
        let (files, bad) = files::one_bad_list(faults, variant);
        for (file, place) in files.into_iter().zip(0..) {
            let block_size = block_size(faults, variant);
            let (start, count) = files::read(variant);
            let planned = Call::FilePlan { file, block_size, start, count, out: Room::Right };
            let call = of(&planned, variant + place).expect("a planned read");
            expect(tally, &call, faults.first(bad));
        }
    }
}

/// Has one of these plans of a planned read judged.
pub fn of(planned: &Call, which: usize) -> Option<Call> {
    let plan = match which % 4 {
        0 => ours(planned),
        1 => Vec::new(),
        2 => vec![b'R'; 33],
        _ => [ours(planned), vec![0; 34]].concat(),
    };
    asked(planned, plan)
}
