//! Kinds of reads across chunks that random calls must have met, each counted in a table of its own.

use second::limits::{CHUNK, INDEX_MAX, PIECE, RECORD};
use second::{file_plan_bytes, ListRefusal, Location, Piece};

use crate::call::{Call, Room};
use crate::joined::Joined;
use crate::most;
use crate::refused::NUMBERS;
use crate::tally::Tally;

mod refused;
mod seen;

/// A call of `file_plan`, and what the second program says of it.
struct Asked<'a> {
    file: &'a Joined,
    start: u64,
    count: u64,
    out: Room,
    /// As much as the plan can need at most.
    much_room: bool,
    plan: Result<Vec<Piece>, ListRefusal>,
}

/// A kind of read, and the refusals (0 for an answer) that it must have been given.
struct Mark {
    name: &'static str,
    is: fn(&Asked) -> bool,
    met: &'static [u64],
}

const ANSWERED: &[u64] = &[0];

const MARKS: [Mark; 20] = [
    Mark { name: "file, zeros at an edge", is: zeros_at_an_edge, met: ANSWERED },
    Mark { name: "file, object over an edge", is: object_over_an_edge, met: ANSWERED },
    Mark { name: "file, two objects at edge", is: two_objects_at_an_edge, met: ANSWERED },
    Mark {
        name: "file, one chunk alone",
        is: |a| a.file.lengths.len() == 1 && a.reads(),
        met: ANSWERED,
    },
    Mark { name: "file, three chunks and more", is: |a| a.chunks() > 2, met: ANSWERED },
    Mark { name: "file, all of 16 chunks", is: |a| a.chunks() == 16, met: ANSWERED },
    Mark { name: "file, starts in a later one", is: starts_later, met: ANSWERED },
    Mark { name: "file, place past 64 MiB", is: place_past_chunk, met: ANSWERED },
    Mark { name: "file, the last index", is: last_index, met: ANSWERED },
    Mark { name: "file, ends in the last list", is: ends_in_the_last, met: ANSWERED },
    Mark { name: "file, ends in an earlier", is: ends_earlier, met: ANSWERED },
    Mark { name: "file, ends at an edge", is: ends_at_an_edge, met: ANSWERED },
    Mark { name: "file, ends before the first", is: ends_before, met: ANSWERED },
    Mark { name: "file, longer than its lists", is: longer_than_lists, met: ANSWERED },
    Mark { name: "file, read past the end", is: past_the_end, met: ANSWERED },
    Mark { name: "file, sum past 2^64", is: sum_past_64_bits, met: ANSWERED },
    Mark {
        name: "file, just enough room",
        is: |a| a.reads() && matches!(a.out, Room::Right),
        met: ANSWERED,
    },
    Mark {
        name: "file, one byte too few",
        is: |a| a.reads() && matches!(a.out, Room::OneShort),
        met: &[12],
    },
    Mark {
        name: "file, much room",
        is: |a| a.much_room && a.reads() && a.lists_of(1) > 1,
        met: ANSWERED,
    },
    Mark { name: "file, records of two lists", is: seen::of_two_lists, met: ANSWERED },
];

fn all() -> impl Iterator<Item = &'static Mark> {
    MARKS.iter().chain(&refused::MARKS)
}

/// Counts a call of `file_plan` that gave this refusal under every mark that it has.
pub fn count(tally: &mut Tally, call: &Call, refusal: u64) {
    let Call::FilePlan { file, block_size, start, count, out } = call else {
        return;
    };
    let (start, count, out) = (*start, *count, *out);
    let plan = file_plan_bytes(&file.file(), *block_size, start, count);
    let lent = out.bytes(plan.as_ref().map_or(0, Vec::len));
    let much_room = lent >= most::bytes(call);
    let plan = plan.map(|bytes| bytes.chunks(PIECE).map(Piece::from_bytes).collect());
    let asked = Asked { file, start, count, out, much_room, plan };
    for mark in all().filter(|mark| (mark.is)(&asked)) {
        tally.mark(mark.name, call.name(), refusal);
    }
}

/// What should have been met and was not.
pub fn missed(tally: &Tally) -> impl Iterator<Item = String> + '_ {
    let pairs = all().flat_map(|mark| mark.met.iter().map(move |met| (mark.name, *met)));
    let missed = pairs.filter(|(name, met)| tally.counted(name, "file_plan", *met as usize) == 0);
    missed.map(|(name, met)| format!("none is {name} that gives {met}"))
}

impl Asked<'_> {
    fn pieces(&self) -> &[Piece] {
        self.plan.as_deref().unwrap_or(&[])
    }

    /// There is a plan, with a piece.
    fn reads(&self) -> bool {
        !self.pieces().is_empty()
    }

    /// How many lists have so many records, or more.
    fn lists_of(&self, records: usize) -> usize {
        let long = |length: &&u64| **length >= (records * RECORD) as u64;
        self.file.lengths.iter().filter(long).count()
    }

    /// How many chunks the plan reads of.
    fn chunks(&self) -> u64 {
        match self.pieces() {
            [] => 0,
            [first, .., last] => last.index - first.index + 1,
            [_] => 1,
        }
    }

    /// Pieces on both sides of an edge.
    fn at_edges(&self) -> impl Iterator<Item = (&Piece, &Piece)> {
        let pairs = self.pieces().windows(2).map(|pair| (&pair[0], &pair[1]));
        pairs.filter(|(before, behind)| before.index != behind.index)
    }

    /// The plan goes up to the file's end, which lies before the last list's, and was asked further.
    fn is_cut_to_file(&self) -> bool {
        let end = self.file.file_end();
        let cut = u128::from(self.start) + u128::from(self.count) > u128::from(end);
        self.reads() && end < self.file.of_lists() && cut
    }
}

fn zeros_at_an_edge(a: &Asked) -> bool {
    a.at_edges().any(|(before, behind)| [before.from, behind.from] == [Location::Zeros; 2])
}

/// One object, at the next place.
pub fn goes_on(before: &Piece, behind: &Piece) -> bool {
    let Location::Object { id, block, length, at } = before.from else {
        return false;
    };
    behind.from == Location::Object { id, block, length, at: at + before.len }
}

fn object_over_an_edge(a: &Asked) -> bool {
    a.at_edges().any(|(before, behind)| goes_on(before, behind))
}

fn two_objects_at_an_edge(a: &Asked) -> bool {
    let objects = |piece: &Piece| piece.from != Location::Zeros;
    a.at_edges().any(|(one, other)| objects(one) && objects(other) && !goes_on(one, other))
}

fn starts_later(a: &Asked) -> bool {
    a.pieces().first().is_some_and(|piece| piece.index > a.file.first_index)
}

fn place_past_chunk(a: &Asked) -> bool {
    a.pieces().iter().any(|piece| piece.place > CHUNK && piece.from != Location::Zeros)
}

fn last_index(a: &Asked) -> bool {
    a.pieces().last().is_some_and(|piece| piece.index == INDEX_MAX)
}

fn ends_in_the_last(a: &Asked) -> bool {
    let last = a.file.of_lists().saturating_sub(CHUNK);
    a.is_cut_to_file() && a.file.file_end() > last && !a.file.file_end().is_multiple_of(CHUNK)
}

fn ends_earlier(a: &Asked) -> bool {
    a.is_cut_to_file()
        && a.file.file_end() + CHUNK < a.file.of_lists()
        && !a.file.file_end().is_multiple_of(CHUNK)
}

fn ends_at_an_edge(a: &Asked) -> bool {
    a.is_cut_to_file() && a.file.file_end().is_multiple_of(CHUNK)
}

fn ends_before(a: &Asked) -> bool {
    let far = a.file.file_len < a.file.first_index.saturating_mul(CHUNK);
    a.plan.is_ok() && far && a.start < a.file.of_lists() && a.count > 0
}

fn longer_than_lists(a: &Asked) -> bool {
    let asked = u128::from(a.start) + u128::from(a.count);
    a.reads() && a.file.file_end() > a.file.of_lists() && asked > u128::from(a.file.of_lists())
}

fn past_the_end(a: &Asked) -> bool {
    let end = a.file.file_end().min(a.file.of_lists());
    a.plan.is_ok() && end > 0 && a.start >= end && a.count > 0
}

fn sum_past_64_bits(a: &Asked) -> bool {
    a.reads() && a.start.checked_add(a.count).is_none()
}
