//! Kinds of places, and of pieces given there, that random calls must have met, each counted in a
//! table of its own.

mod joined;
mod refused;

use second::limits::CHUNK;
use second::{Location, Piece};

use super::files::goes_on;
use crate::call::Call;
use crate::places;
use crate::tally::Tally;

/// A call for the next piece that was answered, and the whole plan.
struct Asked<'a> {
    /// In chunk order, from the index on.
    lists: Vec<&'a [u8]>,
    index: u64,
    start: u64,
    count: u64,
    at: u64,
    plan: Vec<Piece>,
}

/// A kind of call, and the calls that must have been one.
struct Mark {
    name: &'static str,
    is: fn(&Asked) -> bool,
    calls: &'static [&'static str],
}

const BOTH: &[&str] = &["next_piece", "next_file_piece"];
const FILE: &[&str] = &["next_file_piece"];

const MARKS: [Mark; 23] = [
    Mark { name: "next, whole RB", is: |a| a.is_whole() && a.is_object(), calls: BOTH },
    Mark { name: "next, whole RZ", is: |a| a.is_whole() && a.is_zeros(), calls: BOTH },
    Mark { name: "next, rest of RB", is: |a| a.is_rest() && a.is_object(), calls: BOTH },
    Mark { name: "next, rest of RZ", is: |a| a.is_rest() && a.is_zeros(), calls: BOTH },
    Mark { name: "next, RB of records", is: |a| a.is_whole() && a.joins_slices(), calls: BOTH },
    Mark { name: "next, RZ of records", is: |a| a.is_whole() && a.joins_zeros(), calls: BOTH },
    Mark {
        name: "next, rest of RB of records",
        is: |a| a.is_rest() && a.joins_slices(),
        calls: BOTH,
    },
    Mark {
        name: "next, rest of RZ of records",
        is: |a| a.is_rest() && a.joins_zeros(),
        calls: BOTH,
    },
    Mark { name: "next, RZ of many records", is: |a| a.joins_many_zeros(), calls: BOTH },
    Mark { name: "next, up to a block's end", is: up_to_a_block_end, calls: BOTH },
    Mark { name: "next, last of several", is: last_of_several, calls: BOTH },
    Mark { name: "next, last byte", is: |a| a.is_rest() && a.at + 1 == a.end(), calls: BOTH },
    Mark { name: "next, finished at the end", is: |a| a.reads() && a.at == a.end(), calls: BOTH },
    Mark { name: "next, finished past the end", is: |a| a.reads() && a.at > a.end(), calls: BOTH },
    Mark { name: "next, nothing to read", is: |a| !a.reads(), calls: BOTH },
    Mark { name: "next, place past 2^32", is: past_32_bits, calls: BOTH },
    Mark { name: "next, place near 2^64", is: |a| a.reads() && a.at >= u64::MAX - 2, calls: BOTH },
    Mark { name: "next, place that wraps", is: wraps, calls: BOTH },
    Mark { name: "next, sum past 2^64", is: sum_past_64_bits, calls: BOTH },
    Mark { name: "next, place past 64 MiB", is: place_past_chunk, calls: FILE },
    Mark { name: "next, first behind an edge", is: first_behind_an_edge, calls: FILE },
    Mark { name: "next, zeros up to an edge", is: zeros_up_to_an_edge, calls: FILE },
    Mark { name: "next, object up to an edge", is: object_up_to_an_edge, calls: FILE },
];

/// Counts a call for the next piece that gave this refusal under every mark that it has.
pub fn count(tally: &mut Tally, call: &Call, refusal: u64) {
    refused::count(tally, call, refusal);
    let Some(asked) = asked(call) else {
        return;
    };
    for mark in MARKS.iter().filter(|mark| (mark.is)(&asked)) {
        tally.mark(mark.name, call.name(), 0);
    }
}

/// What should have been met and was not.
pub fn missed(tally: &Tally) -> impl Iterator<Item = String> + '_ {
    let pairs = MARKS.iter().flat_map(|mark| mark.calls.iter().map(move |call| (mark.name, call)));
    let missed = pairs.filter(|(name, call)| tally.counted(name, call, 0) == 0);
    let said = missed.map(|(name, call)| format!("no answered {call} is {name}"));
    said.chain(refused::missed(tally))
}

/// Of an answered call for the next piece.
fn asked(call: &Call) -> Option<Asked<'_>> {
    let (start, count, at) = match call {
        Call::NextPiece { start, count, at, .. } | Call::NextFilePiece { start, count, at, .. } => {
            (*start, *count, *at)
        }
        _ => return None,
    };
    let plan = places::pieces(call)?;
    let (lists, index) = match call {
        Call::NextFilePiece { file, .. } => (file.each(), file.first_index),
        _ => (call.list().into_iter().collect(), plan.first().map_or(0, |piece| piece.index)),
    };
    Some(Asked { lists, index, start, count, at, plan })
}

impl Asked<'_> {
    fn end(&self) -> u64 {
        places::end(&self.plan)
    }

    fn reads(&self) -> bool {
        self.end() > 0
    }

    /// The number of the piece that holds the place.
    fn number(&self) -> Option<usize> {
        let holds = |piece: &Piece| (piece.place..piece.place + piece.len).contains(&self.at);
        self.plan.iter().position(holds)
    }

    fn piece(&self) -> Option<&Piece> {
        self.number().map(|number| &self.plan[number])
    }

    /// That piece and the one behind it.
    fn both(&self) -> Option<(&Piece, &Piece)> {
        let number = self.number()?;
        Some((&self.plan[number], self.plan.get(number + 1)?))
    }

    fn is_whole(&self) -> bool {
        self.piece().is_some_and(|piece| piece.place == self.at)
    }

    fn is_rest(&self) -> bool {
        self.piece().is_some_and(|piece| piece.place < self.at)
    }

    fn is_zeros(&self) -> bool {
        self.piece().is_some_and(|piece| piece.from == Location::Zeros)
    }

    fn is_object(&self) -> bool {
        self.piece().is_some_and(|piece| piece.from != Location::Zeros)
    }

    /// The piece ends at the edge of its chunk, and something comes behind it.
    fn at_an_edge(&self) -> Option<(&Piece, &Piece)> {
        self.both().filter(|(piece, behind)| piece.index != behind.index)
    }
}

fn zeros_up_to_an_edge(a: &Asked) -> bool {
    a.at_an_edge().is_some_and(|(piece, behind)| [piece.from, behind.from] == [Location::Zeros; 2])
}

fn object_up_to_an_edge(a: &Asked) -> bool {
    a.at_an_edge().is_some_and(|(piece, behind)| goes_on(piece, behind))
}

/// The next piece is the next block of the same slice.
fn up_to_a_block_end(a: &Asked) -> bool {
    let Some((Location::Object { id, block, .. }, behind)) =
        a.both().map(|(piece, behind)| (piece.from, behind.from))
    else {
        return false;
    };
    matches!(behind, Location::Object { id: i, block: b, at: 0, .. } if (i, b) == (id, block + 1))
}

fn last_of_several(a: &Asked) -> bool {
    a.plan.len() > 1 && a.number() == Some(a.plan.len() - 1)
}

/// Cut to 32 bits it would lie in the read.
fn past_32_bits(a: &Asked) -> bool {
    a.at >> 32 > 0 && a.at % (1 << 32) < a.end()
}

/// With the start it would wrap into the chunks.
fn wraps(a: &Asked) -> bool {
    a.reads() && a.start.checked_add(a.at).is_none()
}

fn sum_past_64_bits(a: &Asked) -> bool {
    a.piece().is_some() && a.start.checked_add(a.count).is_none()
}

fn place_past_chunk(a: &Asked) -> bool {
    a.at > CHUNK && a.is_object()
}

/// At the place of a piece that comes behind one of another chunk.
fn first_behind_an_edge(a: &Asked) -> bool {
    let mut at_edges = a.plan.windows(2).filter(|pair| pair[0].index != pair[1].index);
    at_edges.any(|pair| pair[1].place == a.at)
}
