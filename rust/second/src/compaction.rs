//! Compaction: the first k records become one new slice.

use crate::limits::RECORD;
use crate::plan::plan_bytes;
use crate::{check, Record, Refusal};

/// How many bytes of each answer were written.
#[derive(Clone, Copy, Debug, PartialEq, Eq)]
pub struct Compacted {
    pub plan: usize,
    pub list: usize,
}

/// Refusals 21, 8, 1, 2, 3 to 6, 16, 10, 9, 12.
pub fn compact(
    list: &[u8],
    index: u64,
    block_size: u64,
    k: u64,
    new_id: u64,
    plan: &mut [u8],
    new_list: &mut [u8],
) -> Result<Compacted, Refusal> {
    put_both(compact_bytes(list, index, block_size, k, new_id), plan, new_list)
}

/// Writes both answers; refusal 12, and no byte written, where either doesn't fit.
pub fn put_both(
    answers: Result<(Vec<u8>, Vec<u8>), Refusal>,
    plan: &mut [u8],
    new_list: &mut [u8],
) -> Result<Compacted, Refusal> {
    let (pieces, records) = answers?;
    if plan.len() < pieces.len() || new_list.len() < records.len() {
        return Err(Refusal::of(12));
    }
    plan[..pieces.len()].copy_from_slice(&pieces);
    new_list[..records.len()].copy_from_slice(&records);
    Ok(Compacted { plan: pieces.len(), list: records.len() })
}

/// The plan and the new list, however short the caller's buffers may be.
pub fn compact_bytes(
    list: &[u8],
    index: u64,
    block_size: u64,
    k: u64,
    new_id: u64,
) -> Result<(Vec<u8>, Vec<u8>), Refusal> {
    check::index(index)?;
    check::block_size(block_size)?;
    let records = check::records(list)?;
    if k > records.len() as u64 {
        return Err(Refusal::of(10));
    }
    if new_id == 0 || records.iter().any(|record| record.id == new_id) {
        return Err(Refusal::of(9));
    }
    let first = &records[..k as usize];
    let rest = &list[RECORD * k as usize..];
    let Some((p, q)) = span(first) else {
        return Ok((Vec::new(), rest.to_vec()));
    };
    let size = q - p + 1;
    let plan = plan_bytes(first, index, block_size, p, q + 1);
    let mut new_list = Record::new(p, new_id, size, 0, size).to_bytes().to_vec();
    new_list.extend_from_slice(rest);
    Ok((plan, new_list))
}

/// The first and the last position that the records cover.
fn span(records: &[Record]) -> Option<(u64, u64)> {
    let covering = || records.iter().filter(|record| record.len > 0);
    let p = covering().map(|record| record.pos).min()?;
    let end = covering().map(|record| record.end()).max()?;
    Some((p, end - 1))
}
