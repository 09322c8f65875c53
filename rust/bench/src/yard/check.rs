//! The checks of a list: refusals 1 to 6 and 16.

use crate::record::{Record, RecordBytes, CHUNK, LIST_RECORDS, RECORD};
use crate::yard::sizes::Sizes;

/// None of refusals 3 to 6.
#[inline(always)]
fn sound(r: &Record) -> bool {
    u64::from(r.pos) + u64::from(r.len) <= u64::from(CHUNK)
        && r.size <= CHUNK
        && (r.id != 0 || r.off == 0 && (r.size == 0 || r.size == r.len))
        && (r.id == 0 || u64::from(r.off) + u64::from(r.len) <= u64::from(r.size))
}

/// The records of a list that meets neither refusal 1 nor 2.
#[inline(always)]
fn records(list: &[u8]) -> Option<&[RecordBytes]> {
    let (records, rest) = list.as_chunks::<RECORD>();
    (rest.is_empty() && records.len() <= LIST_RECORDS).then_some(records)
}

/// The records of an acceptable list. Rising ids are seen on the way: no two of them are alike.
#[inline(never)]
pub fn checked<'a>(list: &'a [u8], sizes: &mut Sizes) -> Option<&'a [RecordBytes]> {
    let records = records(list)?;
    let (mut rising, mut greatest) = (true, 0);
    for bytes in records {
        let record = Record::from_bytes(bytes);
        if !sound(&record) {
            return None;
        }
        rising &= (record.id == 0) | (record.id > greatest);
        greatest = greatest.max(record.id);
    }
    (rising || sizes.agree(records)).then_some(records)
}

/// The records of a list that meets none of refusals 1 to 6.
#[inline(never)]
pub fn passed(list: &[u8]) -> Option<&[RecordBytes]> {
    let records = records(list)?;
    records.iter().all(|bytes| sound(&Record::from_bytes(bytes))).then_some(records)
}
