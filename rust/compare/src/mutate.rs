//! Small changes that spoil a sound list, a view or a sound text.

pub mod lengths;

use second::limits::{CHUNK, RECORD};
use second::Record;

use rng::Rng;

/// Changes a list in one way, or leaves it as it is.
pub fn list(rng: &mut Rng, list: &mut Vec<u8>) {
    match rng.below(26) {
        0 => one_record(rng, list, field),
        1 => byte(rng, list),
        2 => list.truncate(rng.below(list.len() as u64 + 1) as usize),
        3 => {
            let more = rng.below(30);
            list.extend(rng.bytes(more));
        }
        4 => {
            let length = rng.below(200);
            *list = rng.bytes(length);
        }
        5 => one_record(rng, list, zero_record),
        6 => repeated(rng, list),
        _ => {}
    }
}

/// Spoils a view in one way, or leaves it as it is: most views stay.
pub fn view(rng: &mut Rng, view: &mut Vec<u8>) {
    match rng.below(16) {
        0 => one_record(rng, view, field),
        1 => one_record(rng, view, past_32_bits),
        2 => byte(rng, view),
        3 => view.truncate(rng.below(view.len() as u64 + 1) as usize),
        4 => cut(rng, view),
        5 => exchanged(rng, view),
        6 => list(rng, view),
        _ => {}
    }
}

/// Drops some whole records at the front or at the end.
fn cut(rng: &mut Rng, view: &mut Vec<u8>) {
    let dropped = rng.below((view.len() / RECORD) as u64 + 1) as usize * RECORD;
    if rng.once_in(2) {
        view.drain(..dropped);
    } else {
        view.truncate(view.len() - dropped);
    }
}

/// Exchanges two whole records of a view or of a list, if there are any.
pub fn exchanged(rng: &mut Rng, records: &mut [u8]) {
    let count = (records.len() / RECORD) as u64;
    if count > 0 {
        let (a, b) = (rng.below(count) as usize, rng.below(count) as usize);
        (0..RECORD).for_each(|i| records.swap(a * RECORD + i, b * RECORD + i));
    }
}

/// Gives a record a length with which it ends past 2^32.
fn past_32_bits(rng: &mut Rng, record: &mut [u8]) {
    let len = u32::MAX - rng.below(3) as u32;
    record[20..24].copy_from_slice(&len.to_be_bytes());
}

/// Changes one of the whole records, if there is any.
fn one_record(rng: &mut Rng, list: &mut [u8], change: fn(&mut Rng, &mut [u8])) {
    let records = (list.len() / RECORD) as u64;
    if records > 0 {
        let at = rng.below(records) as usize * RECORD;
        change(rng, &mut list[at..at + RECORD]);
    }
}

/// Sets one field of a record to a number at an edge.
fn field(rng: &mut Rng, record: &mut [u8]) {
    if rng.once_in(5) {
        let id = rng.pick(&[0, 1, u64::MAX]);
        record[4..12].copy_from_slice(&id.to_be_bytes());
        return;
    }
    let chunk = CHUNK as u32;
    let edges = [0, 1, chunk - 1, chunk, chunk + 1, 1 << 31, u32::MAX - 1, u32::MAX];
    let at = rng.pick(&[0, 12, 16, 20]);
    record[at..at + 4].copy_from_slice(&rng.pick(&edges).to_be_bytes());
}

/// Makes a record a zero record with a size at an edge, and now and then with an offset.
fn zero_record(rng: &mut Rng, record: &mut [u8]) {
    let len = Record::from_bytes(record).len;
    let size = rng.pick(&[len, len + 1, len.saturating_sub(1), 2 * len, 1, 0]) as u32;
    record[4..12].fill(0);
    record[12..16].copy_from_slice(&size.to_be_bytes());
    record[16..20].copy_from_slice(&rng.pick(&[0_u32, 0, 0, 1]).to_be_bytes());
}

/// Puts a copy of a record, now and then an empty one, with a size one above or below the
/// record's behind some other.
fn repeated(rng: &mut Rng, list: &mut Vec<u8>) {
    let records = (list.len() / RECORD) as u64;
    if records == 0 {
        return;
    }
    let from = rng.below(records);
    let to = from + 1 + rng.below(records - from);
    let mut record = Record::from_bytes(&list[from as usize * RECORD..][..RECORD]);
    record.size = rng.pick(&[record.size + 1, record.size.saturating_sub(1)]);
    if rng.once_in(2) {
        record.len = 0;
    }
    let at = to as usize * RECORD;
    list.splice(at..at, record.to_bytes());
}

/// Gives one byte another value, or the same again.
pub fn byte(rng: &mut Rng, bytes: &mut [u8]) {
    if !bytes.is_empty() {
        let at = rng.below(bytes.len() as u64) as usize;
        bytes[at] = rng.u64() as u8;
    }
}

/// Changes a text in one way.
pub fn text(rng: &mut Rng, text: &mut Vec<u8>) {
    let at = rng.below(text.len() as u64 + 1) as usize;
    let inside = at < text.len();
    let new = rng.pick(b"0123456789_/-+,. cCAaz\0\xff");
    match rng.below(6) {
        0 => text.insert(at, new),
        1 if inside => drop(text.remove(at)),
        2 if inside => text[at] = new,
        3 => text.truncate(at),
        4 if inside => text.insert(at, text[at]),
        5 if at + 1 < text.len() => text.swap(at, at + 1),
        _ => byte(rng, text),
    }
}
