//! The view and the plan against a walk over every position, on short lists.

use std::collections::HashSet;

mod common;
use common::random::zeros_size;
use common::*;
use rng::Rng;
use second::limits::PIECE;
use second::{plan_bytes, read_plan_bytes, view_bytes, view_of};
use second::{source_at, Location, Piece, Record, Refusal, Source};

const END: u64 = 60;
const INDEX: u64 = 4_294_967_295;

/// Records of few ids, sizes and places, so that they meet often. Where a slice has two sizes the
/// definitions still say what is seen, and the calls refuse.
fn crowded(random: &mut Rng) -> Vec<u8> {
    let rows: Vec<Row> = (0..random.below(9)).map(|_| crowded_row(random)).collect();
    list(&rows)
}

fn crowded_row(random: &mut Rng) -> Row {
    let (pos, len) = (random.below(END - 10), random.below(11));
    match random.below(4) {
        0 => (pos, 0, zeros_size(random, len), 0, len),
        // One slice lies everywhere at its own position, so that parts rejoin.
        1 => (pos, 1, 100, pos, len),
        2 => (pos, 1, 101, pos, len),
        _ => (pos, 1 + random.below(3), 40, random.below(30), len),
    }
}

/// The source of each position, as the records of a view give it.
fn spread(bytes: &[u8]) -> Vec<Source> {
    let mut sources = Vec::new();
    for run in bytes.chunks(24).map(Record::from_bytes) {
        assert_eq!(run.pos, sources.len() as u64);
        assert!(run.len > 0);
        for i in 0..run.len {
            sources.push(match (run.id, run.size) {
                (0, 0) => Source::Zero,
                (0, _) => Source::Nothing,
                (id, size) => Source::Byte { id, size, off: run.off + i },
            });
        }
    }
    sources
}

/// How many runs a row of sources has, told from neighbours alone.
fn runs_in(sources: &[Source]) -> usize {
    let goes_on = |pair: &&[Source]| match (pair[0], pair[1]) {
        (Source::Byte { id, size, off }, next) => next == Source::Byte { id, size, off: off + 1 },
        (first, next) => first == next,
    };
    sources.len() - sources.windows(2).filter(goes_on).count()
}

#[test]
fn view_is_the_cover_in_fewest_runs() {
    let mut random = Rng::new(1);
    for _ in 0..3_000 {
        let list = crowded(&mut random);
        let chunk_len = random.below(END + 1);
        let records = decoded(&list);
        let out = view_of(&records, chunk_len);
        let cover: Vec<Source> = (0..chunk_len).map(|p| source_at(&records, p)).collect();
        assert_eq!(spread(&out), cover);
        assert_eq!(out.len() / 24, runs_in(&cover));
        assert!(out.len() / 24 <= 2 * records.len() + 1);
        for run in out.chunks(24).map(Record::from_bytes) {
            assert!(run.id != 0 || run.off == 0 && (run.size == 0 || run.size == run.len));
        }
        answers_or_16(&records, view_bytes(&list, chunk_len), out);
    }
}

/// A call gives what the definition says, unless a slice has two sizes.
fn answers_or_16(records: &[Record], answer: Result<Vec<u8>, Refusal>, defined: Vec<u8>) {
    let sizes: HashSet<(u64, u64)> = records.iter().map(|r| (r.id, r.size)).collect();
    let slices: HashSet<u64> = sizes.iter().map(|pair| pair.0).filter(|id| *id != 0).collect();
    let one_size = sizes.iter().filter(|pair| pair.0 != 0).count() == slices.len();
    assert_eq!(
        answer.map_err(|refusal| refusal.number),
        if one_size { Ok(defined) } else { Err(16) }
    );
}

/// The location of each byte of a read, as the pieces of a plan give it.
fn locations(bytes: &[u8]) -> Vec<Location> {
    let mut locations = Vec::new();
    for piece in bytes.chunks(PIECE).map(Piece::from_bytes) {
        assert_eq!(piece.index, INDEX);
        assert_eq!(piece.place, locations.len() as u64);
        assert!(piece.len > 0);
        for i in 0..piece.len {
            locations.push(match piece.from {
                Location::Zeros => Location::Zeros,
                Location::Object { id, block, length, at } => {
                    Location::Object { id, block, length, at: at + i }
                }
            });
        }
    }
    locations
}

fn pieces_in(locations: &[Location]) -> usize {
    let goes_on = |pair: &&[Location]| match (pair[0], pair[1]) {
        (Location::Object { id, block, length, at }, next) => {
            next == Location::Object { id, block, length, at: at + 1 }
        }
        (first, next) => first == next,
    };
    locations.len() - locations.windows(2).filter(goes_on).count()
}

/// Where a source lies, in the words of the paper.
fn lies(source: Source, block_size: u64) -> Location {
    match source {
        Source::Byte { id, size, off } => Location::Object {
            id,
            block: off / block_size,
            length: std::cmp::min(block_size, size - off / block_size * block_size),
            at: off % block_size,
        },
        _ => Location::Zeros,
    }
}

/// As `crowded`, with slice offsets about the edge of a block of 65,536 bytes.
fn at_an_edge(random: &mut Rng) -> Vec<u8> {
    let mut moved = rows(&crowded(random));
    for row in moved.iter_mut().filter(|row| row.1 != 0) {
        row.2 = 131_072 + random.below(2);
        row.3 += 65_520;
    }
    list(&moved)
}

#[test]
fn plan_is_the_cover_in_fewest_pieces() {
    let mut random = Rng::new(2);
    for _ in 0..3_000 {
        let list = at_an_edge(&mut random);
        let chunk_len = random.below(END + 1);
        let (start, count) = (random.below(END + 5), random.below(END + 5));
        let records = decoded(&list);
        let end = chunk_len.min(start + count).max(start);
        let out = plan_bytes(&records, INDEX, 65_536, start, end);
        let read: Vec<Location> =
            (start..end).map(|p| lies(source_at(&records, p), 65_536)).collect();
        assert_eq!(locations(&out), read);
        assert_eq!(out.len() / PIECE, pieces_in(&read));
        let answer = read_plan_bytes(&list, INDEX, chunk_len, 65_536, start, count);
        answers_or_16(&records, answer, out);
    }
}
