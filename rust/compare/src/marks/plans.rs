//! Kinds of plans of one chunk that random calls must have met, each counted in a table of its own.

use second::limits::{INDEX_MAX, RECORD};
use second::{compact_bytes, read_plan_bytes};

use crate::call::Call;
use crate::most;
use crate::tally::Tally;

/// A call that was answered with a plan of a piece or more.
struct Asked<'a> {
    call: &'a Call,
    index: u64,
    /// How many records the list has, and of how many first ones the plan is.
    records: u64,
    first: u64,
    /// Bytes lent for the plan.
    lent: usize,
}

/// A kind of plan, and the calls that must have written one.
struct Mark {
    name: &'static str,
    is: fn(&Asked) -> bool,
    calls: &'static [&'static str],
}

const BOTH: &[&str] = &["read_plan", "compact"];

const MARKS: [Mark; 4] = [
    Mark { name: "plan, much room", is: much_room, calls: BOTH },
    Mark { name: "plan, index above 2^24", is: |a| a.index > 1 << 24, calls: BOTH },
    Mark { name: "plan, the last index", is: |a| a.index == INDEX_MAX, calls: BOTH },
    Mark { name: "plan, of some records", is: |a| a.first < a.records, calls: &["compact"] },
];

/// Counts a call under every mark that its plan has.
pub fn count(tally: &mut Tally, call: &Call, refusal: u64) {
    let Some(asked) = asked(call).filter(|_| refusal == 0) else {
        return;
    };
    for mark in MARKS.iter().filter(|mark| (mark.is)(&asked)) {
        tally.mark(mark.name, call.name(), 0);
    }
}

/// What should have been met and was not.
pub fn missed(tally: &Tally) -> impl Iterator<Item = String> + '_ {
    let pairs = MARKS.iter().flat_map(|mark| mark.calls.iter().map(move |call| (mark.name, call)));
    let missed = pairs.filter(|(name, call)| tally.counted(name, call, 0) == 0);
    missed.map(|(name, call)| format!("no answered {call} is {name}"))
}

fn asked(call: &Call) -> Option<Asked<'_>> {
    let records = (call.list()?.len() / RECORD) as u64;
    let (index, first, plan, room) = match call {
        Call::ReadPlan { list, index, chunk_len, block_size, start, count, out } => {
            let plan = read_plan_bytes(list, *index, *chunk_len, *block_size, *start, *count);
            (*index, records, plan.ok()?, out)
        }
        Call::Compact { list, index, block_size, k, new_id, plan: out, .. } => {
            (*index, *k, compact_bytes(list, *index, *block_size, *k, *new_id).ok()?.0, out)
        }
        _ => return None,
    };
    let lent = room.bytes(plan.len());
    (!plan.is_empty()).then_some(Asked { call, index, records, first, lent })
}

/// As much as the plan of several records can need at most.
fn much_room(a: &Asked) -> bool {
    a.first > 1 && a.lent >= most::bytes(a.call)
}
