//! A plan that is judged: nothing is written.

use ezumokarin::sys::ezk_judged;

use super::file::LentLists;
use super::Seen;
use crate::expected::judged;
use crate::joined::Joined;
use crate::lent::Lent;

type JudgePlan = fn(&[u8], &[u64], u64, u64, u64, u64, u64, &[u8]) -> ezk_judged;

pub fn reading(
    file: &Joined,
    (block_size, start, count): (u64, u64, u64),
    plan: &[u8],
    shift: usize,
    archive: JudgePlan,
) -> Seen {
    let (lent, lent_plan) = (LentLists::of(file, shift), Lent::holding(plan, shift / 16));
    let Joined { first_index, file_len, .. } = *file;
    let (lists, lengths, part) = (lent.lists.part(), lent.lengths(), lent_plan.part());
    let got = archive(lists, lengths, first_index, file_len, block_size, start, count, part);
    let (refusal, want) = judged(second::judge(&file.file(), block_size, start, count, plan));
    let mut seen = Seen { refusal, faults: Vec::new() };
    seen.same("answer", &got, &want);
    seen.kept("plan", &lent_plan, 0);
    lent.kept(file, &mut seen);
    seen
}
