//! The place of a refused record, for each refusal that has one.

use ezumokarin::{check, compact, Record, Refusal};

const GOOD: Record = Record { pos: 0, id: 7, size: 10, off: 4, len: 6 };
const CHUNK: u32 = ezumokarin::CHUNK as u32;

/// The second record is refused so, and the third, as bad, isn't reached.
fn second_refused(bad: Record, refusal: Refusal, number: u64) {
    let list = [GOOD.to_bytes(), bad.to_bytes(), bad.to_bytes()].concat();
    let refused = check(&list).expect_err("a refusal");
    assert_eq!(refused, refusal);
    assert_eq!((refused.number(), refused.place()), (number, Some(1)));
    assert_eq!(compact(&list, 0, 65_536, 1, 9, &mut [], &mut []), Err(refusal));
}

#[test]
fn places_of_bad_records() {
    second_refused(Record { pos: CHUNK - 5, ..GOOD }, Refusal::RecordEnd { place: 1 }, 3);
    second_refused(Record { size: CHUNK + 1, ..GOOD }, Refusal::SliceSize { place: 1 }, 4);
    second_refused(Record { id: 0, off: 0, ..GOOD }, Refusal::ZeroRecord { place: 1 }, 5);
    second_refused(Record { id: 0, size: 0, ..GOOD }, Refusal::ZeroRecord { place: 1 }, 5);
    second_refused(Record { id: 0, size: 6, ..GOOD }, Refusal::ZeroRecord { place: 1 }, 5);
    second_refused(Record { len: 7, ..GOOD }, Refusal::SliceEnd { place: 1 }, 6);
    second_refused(Record { size: 11, ..GOOD }, Refusal::TwoSizes { place: 1 }, 16);
}
