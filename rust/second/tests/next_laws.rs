//! Pieces one at a time from any place on, against the cover at every byte of a short read.

mod common;
use common::random::{some_list, BLOCK_SIZE};
use common::*;
use rng::Rng;
use second::{next_piece, source_at, Location, Next, Piece, Record, Source};

/// Where the byte of a position lies, in the words of the paper.
fn lies(records: &[Record], position: u64) -> Location {
    match source_at(records, position) {
        Source::Byte { id, size, off } => Location::Object {
            id,
            block: off / BLOCK_SIZE,
            length: BLOCK_SIZE.min(size - off / BLOCK_SIZE * BLOCK_SIZE),
            at: off % BLOCK_SIZE,
        },
        _ => Location::Zeros,
    }
}

/// Where byte `i` of a piece lies.
fn byte_of(piece: &Piece, i: u64) -> Location {
    match piece.from {
        Location::Zeros => Location::Zeros,
        Location::Object { id, block, length, at } => {
            Location::Object { id, block, length, at: at + i }
        }
    }
}

/// All pieces from a place on, each asked for with the place that came before.
fn from(list: &[u8], chunk_len: u64, (start, count): (u64, u64), place: u64) -> Vec<Piece> {
    let at = |place| {
        next_piece(list, 9, chunk_len, BLOCK_SIZE, start, count, place).expect("no refusal")
    };
    let mut pieces = Vec::new();
    let mut kept = place;
    while let Some(Next { piece, next }) = at(kept) {
        assert_eq!((piece.place, next), (kept, kept + piece.len));
        assert!(piece.len > 0);
        kept = next;
        pieces.push(piece);
    }
    pieces
}

/// About an edge of a block, or near the front, where most records lie.
fn some_start(random: &mut Rng) -> u64 {
    random.pick(&[0, BLOCK_SIZE - 20, 2 * BLOCK_SIZE - 20]) + random.below(60)
}

/// The bytes from the place up to the end lie where the cover says, and no two neighbours go on.
#[test]
fn every_byte_from_every_place() {
    let mut random = Rng::new(14);
    for _ in 0..400 {
        let list = some_list(&mut random, 12, 3);
        let (start, count) = (some_start(&mut random), random.below(90));
        let chunk_len = random.pick(&[CHUNK, start + 40, start]);
        let end = (start + count).min(chunk_len) - start;
        let records = decoded(&list);
        let want: Vec<Location> = (start..start + end).map(|p| lies(&records, p)).collect();
        for place in (0..=end + 2).chain([u64::MAX - start, u64::MAX]) {
            let pieces = from(&list, chunk_len, (start, count), place);
            let bytes =
                |piece: &Piece| (0..piece.len).map(|i| byte_of(piece, i)).collect::<Vec<_>>();
            let got: Vec<Location> = pieces.iter().flat_map(bytes).collect();
            assert_eq!(got, want[end.min(place) as usize..]);
            for pair in pieces.windows(2) {
                assert_ne!(byte_of(&pair[0], pair[0].len), pair[1].from);
            }
        }
    }
}
