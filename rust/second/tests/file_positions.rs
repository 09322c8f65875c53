//! Plans across chunks against the cover at every place where something can change, and against the
//! chunks' own plans.

mod common;
use common::files::*;
use common::random::{some_list, BLOCK_SIZE};
use common::*;
use rng::Rng;
use second::limits::PIECE;
use second::{file_plan_bytes, read_plan_bytes, source_at, File, Location, Piece, Record, Source};

/// Two to four lists with records about both ends of the chunk.
fn some_lists(random: &mut Rng) -> Vec<Vec<u8>> {
    (0..2 + random.below(3)).map(|_| at_both_ends(random)).collect()
}

/// Positions near the chunk's end are made of those past 80,000. One slice goes on over the edge.
fn at_both_ends(random: &mut Rng) -> Vec<u8> {
    let mut all = rows(&some_list(random, 8, 3));
    for row in all.iter_mut().filter(|row| row.0 > 80_000 || row.0 % 3 == 0) {
        row.0 = (CHUNK - 100_000 + row.0).min(CHUNK - row.4);
    }
    if random.once_in(2) {
        all.push((CHUNK - 50, 9, 200, 0, 50));
        all.push((0, 9, 200, 50, 60));
    }
    list(&all)
}

/// About an edge or the file's end, or anywhere.
fn some_place(random: &mut Rng, chunks: u64) -> u64 {
    let edge = random.below(chunks + 1) * CHUNK;
    match random.below(4) {
        0 => random.below(chunks * CHUNK),
        1 => edge + random.below(100_000),
        _ => (edge + random.below(200)).saturating_sub(100),
    }
}

/// Where the byte of a place lies, in the words of the paper.
fn lies(chunks: &[Vec<Record>], place: u64) -> Location {
    match source_at(&chunks[(place / CHUNK) as usize], place % CHUNK) {
        Source::Byte { id, size, off } => Location::Object {
            id,
            block: off / BLOCK_SIZE,
            length: BLOCK_SIZE.min(size - off / BLOCK_SIZE * BLOCK_SIZE),
            at: off % BLOCK_SIZE,
        },
        _ => Location::Zeros,
    }
}

/// Where byte `i` of a piece lies.
fn byte_of(piece: &Piece, i: u64) -> Location {
    match piece.from {
        Location::Zeros => Location::Zeros,
        Location::Object { id, block, length, at } => {
            Location::Object { id, block, length, at: at + i }
        }
    }
}

/// The read's bytes from `start` up to `end` have their locations, one piece behind the other, and
/// two neighbours of one chunk do not go on.
fn is_plan(chunks: &[Vec<Record>], first_index: u64, start: u64, end: u64, plan: &[Piece]) {
    let mut from = start;
    for (i, piece) in plan.iter().enumerate() {
        assert_eq!(piece.place, from - start);
        assert_eq!(piece.index, first_index + from / CHUNK);
        assert_eq!(piece.index, first_index + (from + piece.len - 1) / CHUNK);
        for place in looked_at(&chunks[(from / CHUNK) as usize], from, piece.len) {
            assert_eq!(byte_of(piece, place - from), lies(chunks, place), "place {place}");
        }
        from += piece.len;
        if let Some(next) = plan.get(i + 1).filter(|next| next.index == piece.index) {
            assert_ne!(byte_of(piece, piece.len), next.from);
        }
    }
    assert_eq!(from, end);
}

/// Places of a piece at which its records could change what is read, its ends and its middle.
fn looked_at(records: &[Record], from: u64, len: u64) -> Vec<u64> {
    let chunk = from / CHUNK * CHUNK;
    let edges = records.iter().flat_map(|record| [chunk + record.pos, chunk + record.end()]);
    let mut places: Vec<u64> = edges.flat_map(|edge| [edge, edge.saturating_sub(1)]).collect();
    places.extend([from, from + len / 2, from + len - 1]);
    places.retain(|place| (from..from + len).contains(place));
    places
}

#[test]
fn plan_is_the_cover_in_fewest_pieces() {
    let mut random = Rng::new(8);
    for _ in 0..2_000 {
        let lists = some_lists(&mut random);
        let count = lists.len() as u64;
        let (first_index, joined) = (random.below(9), Joined::new(&lists));
        let (start, stop) = (some_place(&mut random, count), some_place(&mut random, count));
        let file_len = first_index * CHUNK + some_place(&mut random, count);
        let file = joined.file(first_index, file_len);
        let asked = stop.saturating_sub(start);
        let plan = file_plan_bytes(&file, BLOCK_SIZE, start, asked).expect("a plan");
        let end = (file_len - first_index * CHUNK).min(count * CHUNK).min(start + asked).max(start);
        let chunks: Vec<Vec<Record>> = lists.iter().map(|list| decoded(list)).collect();
        let pieces: Vec<Piece> = plan.chunks(PIECE).map(Piece::from_bytes).collect();
        is_plan(&chunks, first_index, start, end, &pieces);
        let records = (joined.lists.len() / 24) as u64;
        let most = 4 * records + 2 * count + (end - start) / BLOCK_SIZE;
        assert!(pieces.len() as u64 <= most);
    }
}

/// The chunks' own plans one behind the other, with their places moved.
fn one_behind_the_other(lists: &[Vec<u8>], file: &File, start: u64, end: u64) -> Vec<Piece> {
    let mut all = Vec::new();
    for (chunk, list) in (0..).zip(lists) {
        let edge = chunk * CHUNK;
        let (from, to) = (start.clamp(edge, edge + CHUNK), end.clamp(edge, edge + CHUNK));
        let (index, count) = (file.first_index + chunk, to.saturating_sub(from));
        let own = read_plan_bytes(list, index, CHUNK, BLOCK_SIZE, from - edge, count);
        for mut piece in own.expect("a plan").chunks(PIECE).map(Piece::from_bytes) {
            piece.place += from - start;
            all.push(piece);
        }
    }
    all
}

#[test]
fn plan_is_the_plans_of_its_chunks() {
    let mut random = Rng::new(9);
    for _ in 0..1_000 {
        let lists = some_lists(&mut random);
        let chunks = lists.len() as u64;
        let joined = Joined::new(&lists);
        let file = joined.file(4_294_967_296 - chunks, u64::MAX);
        let (start, count) = (some_place(&mut random, chunks), random.below(2 * CHUNK));
        let plan = file_plan_bytes(&file, BLOCK_SIZE, start, count).expect("a plan");
        let end = (start + count).min(chunks * CHUNK);
        let pieces: Vec<Piece> = plan.chunks(PIECE).map(Piece::from_bytes).collect();
        assert_eq!(pieces, one_behind_the_other(&lists, &file, start, end));
    }
}
