//! Kinds of lists, of plans, of seeking, of pairs of lists, of reads across chunks, of places in a read
//! and of judged plans that random calls must have met, each counted in a table of its own.

mod files;
mod history;
mod judge;
mod next;
mod plans;
mod seeking;
mod shown;

use std::collections::HashSet;

use second::limits::RECORD;
use second::Record;

use crate::call::Call;
use crate::tally::Tally;

/// The calls that take one list.
const CALLS: [&str; 6] = ["check", "view", "tidy", "read_plan", "next_piece", "compact"];

/// A kind of list, and a refusal (0 for an answer) that each call must give to one of them.
struct Mark {
    name: &'static str,
    is: fn(&[Record]) -> bool,
    met: usize,
}

const MARKS: [Mark; 9] = [
    Mark { name: "random, zeros with a size", is: several_sized_zeros, met: 0 },
    Mark { name: "random, views fed back", is: view_with_holes, met: 0 },
    Mark { name: "random, zeros of other size", is: zeros_of_other_size, met: 5 },
    Mark { name: "random, many slices", is: many_slices, met: 0 },
    Mark { name: "random, slices alike", is: slices_alike, met: 0 },
    Mark { name: "random, two sizes of many", is: two_sizes_of_many, met: 16 },
    Mark { name: "random, two sizes of alike", is: two_sizes_of_alike, met: 16 },
    Mark { name: "random, two sizes apart", is: two_sizes_apart, met: 16 },
    Mark { name: "random, empty of other size", is: empty_of_other_size, met: 16 },
];

/// Counts a call that gave this refusal under every mark that it or its list has.
pub fn count(tally: &mut Tally, call: &Call, refusal: u64) {
    seeking::count(tally, call);
    history::count(tally, call, refusal);
    files::count(tally, call, refusal);
    plans::count(tally, call, refusal);
    next::count(tally, call, refusal);
    judge::count(tally, call, refusal);
    let Some(list) = call.list() else {
        return;
    };
    let records: Vec<Record> = list.chunks_exact(RECORD).map(Record::from_bytes).collect();
    for mark in MARKS.iter().filter(|mark| (mark.is)(&records)) {
        tally.mark(mark.name, call.name(), refusal);
    }
}

/// What should have been met and was not.
pub fn missed(tally: &Tally) -> Vec<String> {
    let pairs = MARKS.iter().flat_map(|mark| CALLS.map(|call| (mark, call)));
    let missed = pairs.filter(|(mark, call)| tally.counted(mark.name, call, mark.met) == 0);
    let said =
        |(mark, call): (&Mark, &str)| format!("no {call} of {} gives {}", mark.name, mark.met);
    let others = seeking::missed(tally).chain(history::missed(tally)).chain(files::missed(tally));
    let others = others.chain(plans::missed(tally)).chain(next::missed(tally));
    let others = others.chain(judge::missed(tally));
    missed.map(said).chain(others).collect()
}

fn sized_zeros(record: &Record) -> bool {
    record.id == 0 && record.size != 0 && record.size == record.len
}

/// Side by side, in a list that is no view; one change of a view doesn't make one.
fn several_sized_zeros(records: &[Record]) -> bool {
    !without_gaps(records) && records.windows(2).any(|pair| pair.iter().all(sized_zeros))
}

fn view_with_holes(records: &[Record]) -> bool {
    records.len() > 1 && without_gaps(records) && records.iter().any(sized_zeros)
}

/// Ascending from 0, each record from the end of the one before.
fn without_gaps(records: &[Record]) -> bool {
    let ends = [0].into_iter().chain(records.iter().map(Record::end));
    ends.zip(records).all(|(end, record)| record.pos == end)
}

/// One more or less than the length.
fn zeros_of_other_size(records: &[Record]) -> bool {
    let near = |r: &Record| r.size != 0 && r.size.abs_diff(r.len) == 1;
    records.iter().any(|record| record.id == 0 && record.off == 0 && near(record))
}

/// Their ids fall more than once.
fn many_slices(records: &[Record]) -> bool {
    let ids: HashSet<u64> = records.iter().map(|record| record.id).collect();
    let falls = records.windows(2).filter(|pair| pair[1].id <= pair[0].id).count();
    ids.len() > 100 && falls > 1
}

/// Many in a long list, whose ids have their low 12 bits in common.
fn slices_alike(records: &[Record]) -> bool {
    let low: HashSet<u64> = records.iter().map(|record| record.id % 4_096).collect();
    many_slices(records) && records.len() > 256 && low.len() < 4
}

fn two_sizes_of_many(records: &[Record]) -> bool {
    let ids: HashSet<u64> = records.iter().map(|record| record.id).collect();
    let sizes: HashSet<(u64, u64)> = records.iter().map(|r| (r.id, r.size)).collect();
    many_slices(records) && !ids.contains(&0) && sizes.len() > ids.len()
}

fn two_sizes_of_alike(records: &[Record]) -> bool {
    slices_alike(records) && two_sizes_of_many(records)
}

/// One slice, and another size.
fn disagree(earlier: &Record, record: &Record) -> bool {
    record.id != 0 && earlier.id == record.id && earlier.size != record.size
}

/// No two neighbours disagree, and two others do.
fn two_sizes_apart(records: &[Record]) -> bool {
    let any = |i: usize| records[..i].iter().any(|earlier| disagree(earlier, &records[i]));
    let side_by_side = records.windows(2).any(|pair| disagree(&pair[0], &pair[1]));
    records.len() < 200 && !side_by_side && (0..records.len()).any(any)
}

/// Without its empty records the list has one size a slice.
fn empty_of_other_size(records: &[Record]) -> bool {
    let some: Vec<&Record> = records.iter().filter(|record| record.len != 0).collect();
    let empty = records.iter().filter(|record| record.len == 0);
    let pairs = |record: &&Record| some.iter().any(|other| disagree(other, record));
    records.len() < 200 && empty.clone().any(|record| pairs(&record)) && !some.iter().any(pairs)
}
