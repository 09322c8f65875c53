//! Object names, written and read.

use ezumokarin::{read_object_name, write_object_name, ObjectName, Refusal};

/// Room for any name.
const ROOM: usize = 192;

fn written(id: u64, block: u64, length: u64) -> Result<String, Refusal> {
    let mut out = [0; ROOM];
    let count = write_object_name(id, block, length, &mut out)?;
    Ok(String::from_utf8(out[..count].to_vec()).expect("a name in ASCII"))
}

#[test]
fn names_written() {
    for (id, block, length, name) in [
        (3, 0, 4_194_304, "chunks/0/0/3_0_4194304"),
        (3, 1, 1_048_576, "chunks/0/0/3_1_1048576"),
        (1_234_567, 2, 100, "chunks/1/1234/1234567_2_100"),
        (
            u64::MAX,
            1_023,
            16_777_216,
            "chunks/18446744073709/18446744073709551/18446744073709551615_1023_16777216",
        ),
    ] {
        assert_eq!(written(id, block, length).as_deref(), Ok(name));
    }
}

#[test]
fn names_read() {
    let largest = "chunks/18446744073709/18446744073709551/18446744073709551615_1023_16777216";
    for (name, id, block, length) in
        [("chunks/1/1234/1234567_2_100", 1_234_567, 2, 100), (largest, u64::MAX, 1_023, 16_777_216)]
    {
        assert_eq!(read_object_name(name.as_bytes()), Ok(ObjectName { id, block, length }));
    }
}

#[test]
fn names_refused_in_reading() {
    for (what, name) in [
        ("a wrong quotient", "chunks/1/1235/1234567_2_100"),
        ("a leading zero", "chunks/0/0/03_0_4194304"),
        ("id 0", "chunks/0/0/0_0_1"),
        ("block 1,024", "chunks/0/0/3_1024_1"),
        ("a length above 16,777,216", "chunks/0/0/3_0_16777217"),
        ("a full name", "media-1/chunks/0/0/3_0_4194304"),
    ] {
        assert_eq!(read_object_name(name.as_bytes()), Err(Refusal::Form), "{what}");
    }
}

/// An id, a block and lengths outside their bounds.
#[test]
fn names_refused_in_writing() {
    for (id, block, length) in [(0, 0, 1), (3, 1_024, 1), (3, 0, 0), (3, 0, 16_777_217)] {
        assert_eq!(written(id, block, length), Err(Refusal::Form));
    }
}
