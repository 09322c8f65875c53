//! The resolved view and the tidied list.

use crate::limits::{CHUNK, TIDIED_RECORDS};
use crate::runs::{join, parts, Run};
use crate::{check, put, Answer, Record, Refusal, Source};

/// Refusals 7, 1, 2, 3 to 6, 16, 12.
pub fn view(list: &[u8], chunk_len: u64, out: &mut [u8]) -> Answer {
    put(view_bytes(list, chunk_len), out)
}

/// Refusals 1, 2, 3 to 6, 16, 11, 12.
pub fn tidy(list: &[u8], out: &mut [u8]) -> Answer {
    put(tidy_bytes(list), out)
}

/// The view, however short the caller's buffer may be.
pub fn view_bytes(list: &[u8], chunk_len: u64) -> Result<Vec<u8>, Refusal> {
    check::chunk_length(chunk_len)?;
    Ok(view_of(&check::records(list)?, chunk_len))
}

/// The view of any records, also of a list that is refused.
pub fn view_of(records: &[Record], chunk_len: u64) -> Vec<u8> {
    let runs = join(parts(records, 0, chunk_len));
    runs.iter().flat_map(|run| written(run).to_bytes()).collect()
}

/// The tidied list, however short the caller's buffer may be.
pub fn tidy_bytes(list: &[u8]) -> Result<Vec<u8>, Refusal> {
    let records = check::records(list)?;
    let mut runs = join(parts(&records, 0, CHUNK));
    runs.retain(|run| run.first != Source::Nothing);
    if runs.len() > TIDIED_RECORDS {
        return Err(Refusal::of(11));
    }
    Ok(runs.iter().flat_map(|run| written(run).to_bytes()).collect())
}

/// A run as a record: only an uncovered one has its length as size.
fn written(run: &Run<Source>) -> Record {
    match run.first {
        Source::Nothing => Record::new(run.start, 0, run.len, 0, run.len),
        Source::Zero => Record::new(run.start, 0, 0, 0, run.len),
        Source::Byte { id, size, off } => Record::new(run.start, id, size, off, run.len),
    }
}
