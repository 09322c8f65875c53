//! Which records of a list are seen at some positions.

use std::collections::HashSet;
use std::ops::Range;

use second::limits::RECORD;
use second::Record;

/// The records by their places in the list, and none for a hole.
pub fn shown(list: &[u8], range: Range<u64>) -> HashSet<Option<usize>> {
    let records: Vec<Record> = list.chunks(RECORD).map(Record::from_bytes).collect();
    let edges = records.iter().flat_map(|record| [record.pos, record.end()]);
    let changes = edges.filter(|edge| range.contains(edge)).chain([range.start]);
    changes.map(|at| records.iter().rposition(|record| record.covers(at))).collect()
}
