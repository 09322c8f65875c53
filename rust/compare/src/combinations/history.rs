//! Two lists: every set of faults in one, with every set of at most one in the other.

use super::faulty::faulty_list;
use super::{expect, sets};
use crate::call::Call;
use crate::pair::Pair;
use crate::tally::Tally;

/// All refusals of the older list come before those of the newer.
pub fn added(tally: &mut Tally, variant: usize) {
    for older in sets(&[1, 2, 3, 4, 5, 6, 16]) {
        for newer in sets(&[1, 2, 3, 4, 5, 6, 16]) {
            if older.several() && newer.several() {
                continue;
            }
            let (old, bad_old) = faulty_list(older, variant);
            let (new, bad_new) = faulty_list(newer, variant);
            let refusals = [older.first(bad_old), newer.first(bad_new)];
            let first = refusals.into_iter().find(|number| *number != 0);
            expect(tally, &Call::Added { pair: Pair::apart(&old, &new) }, first.unwrap_or(0));
        }
    }
}
