//! Kinds of seeking that random calls must have met, each counted in a table of its own.

use second::limits::{CHUNK, RECORD};
use second::{find, Found, Record};

use super::without_gaps;
use crate::call::Call;
use crate::tally::Tally;

/// A call of `find`, and what the second program answers.
struct Sought<'a> {
    view: &'a [u8],
    row: Vec<Record>,
    segments: u64,
    position: u64,
    found: Option<Found>,
}

struct Mark {
    name: &'static str,
    is: fn(&Sought) -> bool,
}

const MARKS: [Mark; 17] = [
    Mark { name: "seeking, found", is: |s| s.is_view() && s.found.is_some() },
    Mark { name: "seeking, first byte", is: first_byte },
    Mark { name: "seeking, last byte", is: last_byte },
    Mark { name: "seeking, last of many", is: last_of_many },
    Mark { name: "seeking, in a long view", is: in_a_long_view },
    Mark { name: "seeking, at the end", is: |s| s.is_view() && s.position == s.end() },
    Mark { name: "seeking, past the end", is: |s| s.is_view() && s.position > s.end() },
    Mark { name: "seeking, past 2^32", is: past_32_bits },
    Mark { name: "seeking, empty view", is: |s| s.row.is_empty() && s.segments > 0 },
    Mark { name: "seeking, number above", is: number_above },
    Mark { name: "seeking, number of bytes", is: number_of_bytes },
    Mark { name: "seeking, number past 2^32", is: number_past_32_bits },
    Mark { name: "seeking, number hides it", is: hidden_by_number },
    Mark { name: "seeking, none when spoilt", is: |s| s.is_spoilt() && s.found.is_none() },
    Mark { name: "seeking, found when spoilt", is: |s| s.is_spoilt() && s.found.is_some() },
    Mark { name: "seeking, held but missed", is: held_but_missed },
    Mark { name: "seeking, end past 2^32", is: end_past_32_bits },
];

/// Counts a call of `find` that is answered under every mark that it has.
pub fn count(tally: &mut Tally, call: &Call) {
    let Call::Find { view, segments, position } = call else {
        return;
    };
    let (segments, position) = (*segments, *position);
    let Ok(found) = find(view, segments, position) else {
        return;
    };
    let row = view.chunks(RECORD).map(Record::from_bytes).collect();
    let sought = Sought { view, row, segments, position, found };
    for mark in MARKS.iter().filter(|mark| (mark.is)(&sought)) {
        tally.mark(mark.name, call.name(), 0);
    }
}

/// What should have been met and was not.
pub fn missed(tally: &Tally) -> impl Iterator<Item = String> + '_ {
    let missed = MARKS.iter().filter(|mark| tally.counted(mark.name, "find", 0) == 0);
    missed.map(|mark| format!("none is {}", mark.name))
}

impl Sought<'_> {
    fn all(&self) -> u64 {
        self.row.len() as u64
    }

    /// Segments without gaps or empty ones, up to an end in the chunk.
    fn is_row_of_view(&self) -> bool {
        without_gaps(&self.row) && self.row.iter().all(|r| r.len > 0) && self.end() <= CHUNK
    }

    /// A view with its own number.
    fn is_view(&self) -> bool {
        self.segments == self.all() && self.is_row_of_view()
    }

    /// Some segments, but no view, with their own number.
    fn is_spoilt(&self) -> bool {
        self.segments == self.all() && !self.is_row_of_view()
    }

    fn end(&self) -> u64 {
        self.row.last().map_or(0, Record::end)
    }

    /// The segment found with the number of all.
    fn with_all(&self) -> Option<Found> {
        find(self.view, self.all(), self.position).expect("whole segments")
    }

    fn held(&self) -> bool {
        self.row.iter().any(|record| record.covers(self.position))
    }
}

fn first_byte(s: &Sought) -> bool {
    s.all() > 2 && s.found.is_some_and(|f| f.segment > 0 && f.record.pos == s.position)
}

fn last_byte(s: &Sought) -> bool {
    s.all() > 2 && s.found.is_some_and(|f| f.record.len > 1 && f.record.end() == s.position + 1)
}

fn last_of_many(s: &Sought) -> bool {
    s.is_view() && s.all() > 2 && s.found.is_some_and(|f| f.segment + 1 == s.all())
}

fn in_a_long_view(s: &Sought) -> bool {
    s.is_view() && s.all() > 100 && s.found.is_some_and(|f| f.segment > 0)
}

/// A position that would be found if it were cut to 32 bits.
fn past_32_bits(s: &Sought) -> bool {
    let cut = find(s.view, s.segments, s.position % (1 << 32)).expect("whole segments");
    s.found.is_none() && cut.is_some()
}

fn number_above(s: &Sought) -> bool {
    s.segments > s.all() && s.found.is_some_and(|f| f.segment + 1 == s.all())
}

fn number_of_bytes(s: &Sought) -> bool {
    s.all() > 0 && s.segments == s.view.len() as u64 && s.found.is_some()
}

/// A number that would hide the segment if it were cut to 32 bits.
fn number_past_32_bits(s: &Sought) -> bool {
    s.found.is_some_and(|f| s.segments % (1 << 32) <= f.segment)
}

fn hidden_by_number(s: &Sought) -> bool {
    s.segments > 0 && s.found.is_none() && s.with_all().is_some_and(|f| f.segment >= s.segments)
}

/// Halving goes by a segment that does hold the position.
fn held_but_missed(s: &Sought) -> bool {
    s.segments == s.all() && s.found.is_none() && s.held()
}

/// The segment found ends where 32 bits would make its end too low.
fn end_past_32_bits(s: &Sought) -> bool {
    s.found.is_some_and(|f| f.record.end() >> 32 > 0)
}
