//! A call that reads two lists.

use ezumokarin::sys::ezk_part;

use super::Seen;
use crate::expected::part;
use crate::lent::Lent;
use crate::pair::Pair;

pub fn reading(pair: &Pair, shift: usize, archive: fn(&[u8], &[u8]) -> ezk_part) -> Seen {
    let (refusal, want) = part(pair.older(), pair.newer());
    let mut seen = Seen { refusal, faults: Vec::new() };
    match pair {
        Pair::Apart { older, newer } => {
            let (older, newer) = (Lent::holding(older, shift), Lent::holding(newer, shift / 16));
            seen.same("answer", &archive(older.part(), newer.part()), &want);
            seen.kept("older list", &older, 0);
            seen.kept("newer list", &newer, 0);
        }
        Pair::Within { memory, older, newer } => {
            let lent = Lent::holding(memory, shift);
            let (older, newer) = (&lent.part()[older.clone()], &lent.part()[newer.clone()]);
            seen.same("answer", &archive(older, newer), &want);
            seen.kept("both lists", &lent, 0);
        }
    }
    seen
}
