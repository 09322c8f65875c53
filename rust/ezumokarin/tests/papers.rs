//! Cases of the papers through the safe calls, with the papers' values.

mod common;
use common::list_of_000;
use ezumokarin::*;

#[test]
fn view_of_000() {
    let table = "0 0 10485760 0 10485760
10485760 10 31457280 0 6291456
16777216 12 10485760 0 10485760
27262976 11 16777216 6291456 10485760
37748736 10 31457280 27262976 4194304
41943040 0 25165824 0 25165824
";
    let mut out = [0; 7 * Record::LEN];
    let count = view(&list_of_000(), CHUNK, &mut out).expect("a view");
    let line = |r: Record| format!("{} {} {} {} {}\n", r.pos, r.id, r.size, r.off, r.len);
    assert_eq!(records(&out[..count]).map(line).collect::<String>(), table);
}

#[test]
fn read_of_two_pieces() {
    let mut out = [0; 68];
    let count = read_plan(&list_of_000(), 3, CHUNK, 4_194_304, 15_728_640, 2_097_152, &mut out);
    assert_eq!(count, Ok(68));
    let first = Location::Object { id: 10, block: 1, length: 4_194_304, at: 1_048_576 };
    let second = Location::Object { id: 12, block: 0, length: 4_194_304, at: 0 };
    let plan = [
        Piece { index: 3, place: 0, from: first, len: 1_048_576 },
        Piece { index: 3, place: 1_048_576, from: second, len: 1_048_576 },
    ];
    assert_eq!(pieces(&out).collect::<Vec<_>>(), plan);
}

#[test]
fn lengths_of_lists() {
    assert_eq!(check(&[]), Ok(0));
    assert_eq!(check(&[0; 24_576]), Ok(1_024));
    assert_eq!(check(&[0; 24_600]), Ok(1_025));
    assert_eq!(check(&[0; 49_152]), Ok(2_048));
    assert_eq!(check(&[0; 49_176]), Err(Refusal::ListRecords));
    assert_eq!(check(&[0; 49_177]), Err(Refusal::ListLength));
}

#[test]
fn bad_record_has_its_place() {
    let good = Record { pos: 0, id: 7, size: 10, off: 4, len: 6 };
    let bad = Record { len: 7, ..good };
    let refused = check(&[good.to_bytes(), bad.to_bytes()].concat()).expect_err("a refusal");
    assert_eq!(refused, Refusal::SliceEnd { place: 1 });
    assert_eq!((refused.number(), refused.place()), (6, Some(1)));
    assert_eq!(refused.to_string(), "record 1: id not 0 and off + len above size");
}

#[test]
fn refused_name_has_no_volume() {
    assert_eq!(read_full_name(b"jfstest/chunks/0/0/1_0_0"), Err(Refusal::Form));
    assert_eq!(read_full_name(b"chunks/0/0/1_0_1"), Err(Refusal::Form));
    assert_eq!(read_object_name(b"jfstest/chunks/0/0/1_0_1"), Err(Refusal::Form));
}

#[test]
fn refused_call_changes_no_byte() {
    let mut out = [0xee; 23];
    assert_eq!(view(&[], 5, &mut out), Err(Refusal::Buffer));
    assert_eq!(out, [0xee; 23]);
}

/// A refusal goes up through `?` as an error.
#[test]
fn refusal_is_an_error() {
    fn read() -> Result<u64, Box<dyn std::error::Error>> {
        Ok(read_redis_key(b"c0100_0")?.inode)
    }
    let sentence =
        "a name or key not of its form, or numbers to be written that the form doesn't allow";
    assert_eq!(read().expect_err("a refusal").to_string(), sentence);
}
