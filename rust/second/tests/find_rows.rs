//! Seeking in rows that may be no view, against halving as a loop.

mod common;
use common::*;
use rng::Rng;
use second::{find, Found, Record};

/// What halving gives, as a loop over two bounds.
fn looped(row: &[Record], position: u64) -> Option<u64> {
    let (mut low, mut high) = (0, row.len());
    while low + 1 < high {
        let mid = low + (high - low) / 2;
        if position < row[mid].pos {
            high = mid;
        } else {
            low = mid;
        }
    }
    holders(row, position).into_iter().find(|number| *number == low as u64)
}

/// All rows of up to four segments at few places, with every number and every position.
#[test]
fn all_short_rows() {
    let kinds = [(0, 3), (1, 0), (2, 1), (2, 4), (4, 2)];
    for count in 0..=4 {
        for choice in 0..5_usize.pow(count) {
            let kind = |i| kinds[choice / 5_usize.pow(i) % 5];
            let rows: Vec<Row> = (0..count).map(|i| (kind(i).0, 7, 9, 0, kind(i).1)).collect();
            for segments in 0..=u64::from(count) + 1 {
                (0..8).for_each(|position| as_looped(&list(&rows), segments, position));
            }
        }
    }
}

#[test]
fn random_rows() {
    let mut random = Rng::new(12);
    for _ in 0..20_000 {
        let count = random.below(40);
        let wide = random.below(33);
        let field = |random: &mut Rng| random.below(1 << 32) >> wide;
        let mut rows: Vec<Row> =
            (0..count).map(|i| (field(&mut random), i, 0, 0, field(&mut random))).collect();
        if random.once_in(2) {
            rows.sort_unstable();
        }
        let segments = [random.below(count + 2), count, u64::MAX][random.below(3) as usize];
        for position in [field(&mut random), 2 * field(&mut random), random.u64()] {
            as_looped(&list(&rows), segments, position);
        }
    }
}

/// The answer is that of the loop; and it is none, or a segment below the number that holds the
/// position, with its own five numbers.
fn as_looped(view: &[u8], segments: u64, position: u64) {
    let row = decoded(view);
    let seen = &row[..row.len().min(segments as usize)];
    let found = find(view, segments, position).expect("whole segments");
    assert_eq!(found.map(|found| found.segment), looped(seen, position));
    if let Some(Found { segment, record }) = found {
        assert!(segment < segments && holders(&row, position).contains(&segment));
        assert_eq!(record, row[segment as usize]);
    }
}
