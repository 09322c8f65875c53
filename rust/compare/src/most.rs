//! The most room that a plan can need. With as much the archive writes it without counting it first.

use second::limits::{BLOCK_SIZE_MIN, CHUNK, PIECE, RECORD};
use second::Record;

use crate::call::{Call, Room};
use rng::Rng;

/// Lends a call that writes a plan about as much, or more.
pub fn lend(rng: &mut Rng, call: &mut Call) {
    let most = bytes(call);
    if let Call::ReadPlan { out, .. }
    | Call::FilePlan { out, .. }
    | Call::Compact { plan: out, .. } = call
    {
        *out = Room::Bytes(match rng.below(4) {
            0 => most,
            1 => most.saturating_sub(1),
            _ => most + rng.below(100) as usize,
        });
    }
}

/// Four pieces a record, two a list and one a block; 0 bytes for a call that writes no plan.
pub fn bytes(call: &Call) -> usize {
    let (records, lists, block_size) = match call {
        Call::ReadPlan { list, block_size, .. } => (list.len() / RECORD, 1, block_size),
        Call::FilePlan { file, block_size, .. } => {
            (file.lists.len() / RECORD, file.lengths.len(), block_size)
        }
        Call::Compact { list, block_size, k, .. } => (first(list, *k).len(), 1, block_size),
        _ => return 0,
    };
    // A smaller block size has no plan, and would ask for far too much.
    let blocks = read(call) / BLOCK_SIZE_MIN.max(*block_size);
    (4 * records + 2 * lists + blocks as usize) * PIECE
}

/// How many bytes a call reads, told by its numbers alone.
pub fn read(call: &Call) -> u64 {
    let (end, start, count) = match call {
        Call::ReadPlan { chunk_len, start, count, .. }
        | Call::NextPiece { chunk_len, start, count, .. } => (CHUNK.min(*chunk_len), start, count),
        Call::FilePlan { file, start, count, .. }
        | Call::NextFilePiece { file, start, count, .. }
        | Call::JudgePlan { file, start, count, .. } => {
            (file.file_end().min(file.of_lists()), start, count)
        }
        Call::Compact { list, k, .. } => return covered(&first(list, *k)),
        _ => return 0,
    };
    (*count).min(end.saturating_sub(*start))
}

/// The first `k` records of a list, or all of them.
fn first(list: &[u8], k: u64) -> Vec<Record> {
    list.chunks_exact(RECORD).map(Record::from_bytes).take(k as usize).collect()
}

/// How many bytes lie between the first and the last that records cover, with both.
fn covered(records: &[Record]) -> u64 {
    let some = records.iter().filter(|record| record.len > 0);
    let start = some.clone().map(|record| record.pos).min().unwrap_or(0);
    CHUNK.min(some.map(Record::end).max().unwrap_or(0)).saturating_sub(start)
}
