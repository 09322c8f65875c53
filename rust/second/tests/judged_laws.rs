//! Plans made elsewhere, of random reads: judged byte by byte; ours are accepted, and an accepted
//! plan fetches the same bytes.

mod common;
use common::files::Joined;
use common::random::{some_list, BLOCK_SIZE};
use common::*;
use rng::Rng;
use second::limits::PIECE;
use second::store::Store;
use second::Location::{Object, Zeros};
use second::{file_plan_bytes, judge, source_at, File, Judged, Location, Piece, Record, Source};

const FIRST: u64 = 3;

/// The chunks of a file from index 3 on, and a short read of them.
struct Read {
    chunks: Joined,
    records: Vec<Vec<Record>>,
    start: u64,
    count: u64,
}

impl Read {
    fn some(random: &mut Rng) -> Read {
        let lists: Vec<Vec<u8>> = (0..3).map(|_| some_list(random, 6, 3)).collect();
        let records = lists.iter().map(|list| decoded(list)).collect();
        let near = random.pick(&[0, 65_500, 131_000, CHUNK - 60, CHUNK, 2 * CHUNK - 60]);
        let (start, count) = (near + random.below(60), random.below(200));
        Read { chunks: Joined::new(&lists), records, start, count }
    }

    fn file(&self) -> File<'_> {
        self.chunks.file(FIRST, u64::MAX)
    }

    fn ours(&self) -> Vec<u8> {
        file_plan_bytes(&self.file(), BLOCK_SIZE, self.start, self.count).expect("a plan")
    }

    /// The chunk and the location of a byte of the read, by the paper's words.
    fn there(&self, place: u64) -> (u64, Location) {
        let (chunk, position) = ((self.start + place) / CHUNK, (self.start + place) % CHUNK);
        let location = match source_at(&self.records[chunk as usize], position) {
            Source::Nothing | Source::Zero => Zeros,
            Source::Byte { id, size, off } => {
                let block = off / BLOCK_SIZE;
                let length = BLOCK_SIZE.min(size - block * BLOCK_SIZE);
                Object { id, block, length, at: off % BLOCK_SIZE }
            }
        };
        (FIRST + chunk, location)
    }

    fn wrong(&self, bytes: &[u8]) -> bool {
        let marked = bytes.len() == PIECE && (&bytes[..2] == b"RB" || &bytes[..2] == b"RZ");
        if !marked || &bytes[..2] == b"RZ" && bytes[10..30].iter().any(|byte| *byte != 0) {
            return true;
        }
        let piece = Piece::from_bytes(bytes);
        let right = |j| {
            piece.place + j < self.count
                && self.there(piece.place + j) == (piece.index, byte_of(&piece, j))
        };
        piece.len == 0 || !(0..piece.len).all(right)
    }

    /// Byte by byte, with a count for each byte of the read: the verdict, and its number or place.
    fn judged(&self, plan: &[u8]) -> (&'static str, u64) {
        if let Some(number) = plan.chunks(PIECE).position(|bytes| self.wrong(bytes)) {
            return ("piece", number as u64);
        }
        let mut held = vec![0; self.count as usize];
        for piece in plan.chunks(PIECE).map(Piece::from_bytes) {
            (piece.place..piece.place + piece.len).for_each(|place| held[place as usize] += 1);
        }
        match held.iter().position(|pieces| *pieces != 1) {
            Some(place) => ("byte", place as u64),
            None => ("accepted", 0),
        }
    }

    fn fetched(&self, store: &Store, plan: &[u8]) -> Vec<u8> {
        let mut bytes = vec![0; self.count as usize];
        for piece in plan.chunks(PIECE).map(Piece::from_bytes) {
            for j in 0..piece.len {
                bytes[(piece.place + j) as usize] = match byte_of(&piece, j) {
                    Zeros => 0,
                    Object { id, block, length, at } => store.byte((id, block, length, at)),
                };
            }
        }
        bytes
    }
}

fn byte_of(piece: &Piece, j: u64) -> Location {
    match piece.from {
        Zeros => Zeros,
        Object { id, block, length, at } => Object { id, block, length, at: at + j },
    }
}

/// Ours, cut at random and in any order.
fn cut(random: &mut Rng, ours: &[u8]) -> Vec<[u8; PIECE]> {
    let mut rows = Vec::new();
    for piece in ours.chunks(PIECE).map(Piece::from_bytes) {
        let mut done = 0;
        while done < piece.len {
            let len = 1 + random.below(piece.len - done);
            let (place, from) = (piece.place + done, byte_of(&piece, done));
            rows.push(Piece { place, from, len, ..piece }.to_bytes());
            done += len;
        }
    }
    for last in (1..rows.len()).rev() {
        rows.swap(last, random.below(last as u64 + 1) as usize);
    }
    rows
}

fn spoilt(random: &mut Rng, mut rows: Vec<[u8; PIECE]>) -> Vec<u8> {
    if !rows.is_empty() {
        let which = random.below(rows.len() as u64) as usize;
        match random.below(6) {
            0 => drop(rows.remove(which)),
            1 => rows.push(rows[which]),
            2 => rows[which][random.below(34) as usize] ^= 1 << random.below(8),
            // The length, or the place in the read and in the block.
            3 => rows[which][33] = rows[which][33].wrapping_add(1),
            4 => [9, 29].iter().for_each(|at| rows[which][*at] = rows[which][*at].wrapping_add(1)),
            _ => {}
        }
    }
    let mut plan = rows.concat();
    if random.once_in(20) {
        plan.truncate(random.below(plan.len() as u64 + 1) as usize);
    }
    plan
}

fn said(read: &Read, plan: &[u8]) -> (&'static str, u64) {
    match judge(&read.file(), BLOCK_SIZE, read.start, read.count, plan).expect("no refusal") {
        Judged::Accepted => ("accepted", 0),
        Judged::WrongPiece { number, .. } => ("piece", number),
        Judged::WrongByte { place, .. } => ("byte", place),
    }
}

#[test]
fn byte_by_byte() {
    let mut random = Rng::new(30);
    let mut met = std::collections::BTreeMap::new();
    for _ in 0..3_000 {
        let read = Read::some(&mut random);
        let rows = cut(&mut random, &read.ours());
        let plan = spoilt(&mut random, rows);
        let judged = read.judged(&plan);
        assert_eq!(said(&read, &plan), judged);
        *met.entry(judged.0).or_insert(0) += 1;
    }
    assert!(met.len() == 3 && met.values().all(|times| *times > 100), "{met:?}");
}

#[test]
fn ours_is_accepted_and_any_other_fetches_the_same() {
    let mut random = Rng::new(31);
    for seed in 0..500 {
        let read = Read::some(&mut random);
        let ours = read.ours();
        assert_eq!(said(&read, &ours), ("accepted", 0));
        let other = cut(&mut random, &ours).concat();
        assert_eq!(said(&read, &other), ("accepted", 0));
        let store = Store::new(seed);
        assert_eq!(read.fetched(&store, &other), read.fetched(&store, &ours));
    }
}
