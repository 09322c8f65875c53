//! One slice, one size: refusal 16, through the safe calls.

mod common;

use common::{list, Row};
use ezumokarin::*;

const SMALL: Row = (0, 7, 9, 0, 9);
const LARGE: Row = (0, 7, 10, 0, 9);
const OTHER: Row = (3, 8, 10, 0, 1);

fn checked(rows: &[Row]) -> Result<usize, Refusal> {
    check(&list(rows))
}

fn refused_at(place: u64) -> Result<usize, Refusal> {
    Err(Refusal::TwoSizes { place })
}

/// The first record that disagrees with an earlier one, beside it or not.
#[test]
fn places() {
    assert_eq!(checked(&[SMALL, OTHER, SMALL]), Ok(3));
    assert_eq!(checked(&[SMALL, LARGE]), refused_at(1));
    assert_eq!(checked(&[LARGE, OTHER, SMALL]), refused_at(2));
    assert_eq!(checked(&[SMALL, SMALL, LARGE, LARGE, SMALL]), refused_at(2));
    assert_eq!(checked(&[SMALL, OTHER, (3, 8, 9, 0, 1), LARGE]), refused_at(2));
}

#[test]
fn empty_records_count() {
    assert_eq!(checked(&[SMALL, (0, 7, 10, 0, 0)]), refused_at(1));
    assert_eq!(checked(&[(0, 7, 10, 0, 0), OTHER, SMALL]), refused_at(2));
    assert_eq!(checked(&[(0, 7, 9, 3, 0), SMALL]), Ok(2));
}

#[test]
fn zeros_are_of_no_slice() {
    assert_eq!(checked(&[(0, 0, 0, 0, 8), (0, 0, 8, 0, 8), (0, 0, 9, 0, 9)]), Ok(3));
}

/// Ids count in all their bytes.
#[test]
fn ids_that_agree_in_part() {
    let others = [1 << 12, 1 << 32, 1 << 63].map(|more| (0, 7 + more, 10, 0, 9));
    assert_eq!(checked(&[&[SMALL], &others[..], &[SMALL]].concat()), Ok(5));
    assert_eq!(checked(&[&others[..], &[SMALL, others[1], LARGE]].concat()), refused_at(5));
}

/// A later record's 3 to 6 comes first; 7 and 8 come before, 10, 9, 11 and 12 behind.
#[test]
fn order() {
    assert_eq!(checked(&[SMALL, LARGE, (0, 7, 10, 4, 7)]), Err(Refusal::SliceEnd { place: 2 }));
    let list = list(&[SMALL, LARGE]);
    let mut out = [0xee; 20];
    let refused = Refusal::TwoSizes { place: 1 };
    assert_eq!(view(&list, CHUNK + 1, &mut out), Err(Refusal::ChunkLength));
    assert_eq!(view(&list, 9, &mut out), Err(refused));
    assert_eq!(tidy(&list, &mut out), Err(refused));
    assert_eq!(read_plan(&list, 0, 9, 0, 0, 9, &mut out), Err(Refusal::BlockSize));
    assert_eq!(read_plan(&list, 0, 9, 65_536, 0, 9, &mut out), Err(refused));
    assert_eq!(compact(&list, 0, 65_536, 3, 7, &mut out, &mut []), Err(refused));
    assert_eq!(out, [0xee; 20]);
}

/// Of 1,999 slices the last record names one again, whichever it is, in its size and in another.
/// Ids rise, fall, rise but for the first, or agree in their low bits.
#[test]
fn many_slices() {
    let orders: [fn(u64) -> u64; 5] = [
        |i| 1 + i,
        |i| 5_000 - i,
        |i| (i + 1_999) % 2_000 + 1,
        |i| (1 + i) << 12,
        |i| (1 + i) << 50,
    ];
    for (order, id) in orders.iter().enumerate() {
        let rows: Vec<Row> = (0..1_999).map(|i| (0, id(i), 9 + i as u32, 0, 0)).collect();
        for named in [0, 1, 2, 1_000, 1_998] {
            let again = rows[named];
            let with = |size| [&rows[..], &[(0, again.1, size, 0, 0)]].concat();
            assert_eq!(checked(&with(again.2)), Ok(2_000), "order {order}, record {named}");
            let other = checked(&with(again.2 + 1));
            assert_eq!(other, refused_at(1_999), "order {order}, record {named}");
        }
    }
}
