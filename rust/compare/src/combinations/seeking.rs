//! Seeking: every number and edge, with whole segments and with some bytes too many.

use second::limits::RECORD;
use second::Record;

use crate::call::Call;
use crate::tally::Tally;

use super::expect;

/// Segments of three bytes.
const LEN: u64 = 3;

pub fn run(tally: &mut Tally) {
    for count in 0..=4 {
        for odd in [0, 1, 12, 23] {
            let view = [row(count), vec![0; odd]].concat();
            let refusal = if odd == 0 { 0 } else { 1 };
            seek(tally, &view, count, refusal);
        }
    }
}

fn row(count: u64) -> Vec<u8> {
    (0..count).flat_map(|i| Record::new(LEN * i, 7 + i, LEN, 0, LEN).to_bytes()).collect()
}

fn seek(tally: &mut Tally, view: &[u8], count: u64, refusal: u64) {
    let above = [count + 1, count * RECORD as u64, 1 << 32, u64::MAX];
    for segments in (0..=count).chain(above) {
        for position in (0..=LEN * count + 1).chain([1 << 32, u64::MAX]) {
            expect(tally, &Call::Find { view: view.to_vec(), segments, position }, refusal);
        }
    }
}
