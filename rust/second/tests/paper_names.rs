//! Names and keys of paper 01 and of documents 000 and 003.

mod common;
use common::*;
use second::*;

fn named(id: u64, block: u64, length: u64) -> ObjectName {
    ObjectName { id, block, length }
}

/// The name is written, and read back as the same numbers.
fn both_ways(name: &[u8], numbers: ObjectName) {
    let written = object_name(numbers.id, numbers.block, numbers.length);
    assert_eq!(written.as_deref(), Ok(name));
    assert_eq!(read_object_name(name), Ok(numbers));
}

#[test]
fn name_of_the_paper() {
    both_ways(b"chunks/1/1234/1234567_2_100", named(1_234_567, 2, 100));
}

#[test]
fn names_of_003() {
    both_ways(b"chunks/0/0/3_0_4194304", named(3, 0, 4_194_304));
    both_ways(b"chunks/0/0/3_1_1048576", named(3, 1, 1_048_576));
    both_ways(b"chunks/0/0/1_0_16", named(1, 0, 16));
}

#[test]
fn full_names_of_000() {
    for (name, block, length) in [
        (&b"jfstest/chunks/0/0/1_0_4194304"[..], 0, 4_194_304),
        (b"jfstest/chunks/0/0/1_1_4194304", 1, 4_194_304),
        (b"jfstest/chunks/0/0/1_2_2097152", 2, 2_097_152),
    ] {
        assert_eq!(full_name(b"jfstest", 1, block, length).as_deref(), Ok(name));
        assert_eq!(read_full_name(name), Ok(named(1, block, length)));
        assert_eq!(volume_of(name), b"jfstest");
        assert_eq!(volume_of(name).as_ptr(), name.as_ptr());
    }
}

#[test]
fn redis_keys() {
    assert_eq!(read_redis_key(b"c100_0"), Ok(ChunkKey { inode: 100, index: 0 }));
    assert_eq!(read_redis_key(b"c100_0,5"), Err(no(13)));
    assert_eq!(read_redis_key(b"c0100_0"), Err(no(13)));
    for (index, key) in [(0, b"c100_0"), (1, b"c100_1"), (2, b"c100_2")] {
        assert_eq!(redis_key(100, index).as_deref(), Ok(&key[..]));
    }
}

#[test]
fn redis_keys_at_the_edges() {
    let largest = b"c18446744073709551615_4294967295";
    assert_eq!(redis_key(u64::MAX, 4_294_967_295).as_deref(), Ok(&largest[..]));
    assert_eq!(read_redis_key(largest), Ok(ChunkKey { inode: u64::MAX, index: 4_294_967_295 }));
    assert_eq!(redis_key(0, 4_294_967_296), Err(no(13)));
    for key in ["", "c", "c_", "c1_", "c_1", "1_1", "C1_1", "c+1_1", "c1_01", "c1_1 ", "c1_1_1"] {
        assert_eq!(read_redis_key(key.as_bytes()), Err(no(13)), "{key}");
    }
    assert_eq!(read_redis_key(b"c18446744073709551616_0"), Err(no(13)));
    assert_eq!(read_redis_key(b"c0_4294967296"), Err(no(13)));
    assert_eq!(read_redis_key(b"c0_0"), Ok(ChunkKey { inode: 0, index: 0 }));
}

/// 003 prints the key of inode 2, chunk 0, behind the volume's prefix.
#[test]
fn tkv_keys() {
    let key = b"A\x02\0\0\0\0\0\0\0C\0\0\0\x01";
    assert_eq!(tkv_key(2, 1).as_deref(), Ok(&key[..]));
    assert_eq!(read_tkv_key(key), Ok(ChunkKey { inode: 2, index: 1 }));
    assert_eq!(read_tkv_key(&key[..13]), Err(no(13)));
    assert_eq!(read_tkv_key(b"A\x02\0\0\0\0\0\0\0C\0\0\0\x01\0"), Err(no(13)));
    assert_eq!(read_tkv_key(b"A\x02\0\0\0\0\0\0\0I\0\0\0\x01"), Err(no(13)));
    assert_eq!(read_tkv_key(b"a\x02\0\0\0\0\0\0\0C\0\0\0\x01"), Err(no(13)));
    assert_eq!(tkv_key(2, 4_294_967_296), Err(no(13)));
}

#[test]
fn numbers_that_no_name_has() {
    for (id, block, length) in [(0, 0, 1), (1, 1_024, 1), (1, 0, 0), (1, 0, 16_777_217)] {
        assert_eq!(object_name(id, block, length), Err(no(13)));
        assert_eq!(full_name(b"v", id, block, length), Err(no(13)));
    }
    both_ways(b"chunks/0/0/1_1023_16777216", named(1, 1_023, 16_777_216));
    let largest = b"chunks/18446744073709/18446744073709551/18446744073709551615_0_1";
    both_ways(largest, named(u64::MAX, 0, 1));
}

#[test]
fn texts_that_are_no_names() {
    for name in [
        "",
        "chunks/",
        "chunks/0/0/0_0_1",
        "chunks/0/0/01_0_1",
        "chunks/0/0/1_00_1",
        "chunks/0/0/1_0_01",
        "chunks/00/0/1_0_1",
        "chunks/0/1/1_0_1",
        "chunks/1/1234/1235567_2_100",
        "chunks/0/0/1_0_1/",
        "chunks/0/0/1_0_1_1",
        "chunks/0/0/1_0_+1",
        "v/chunks/0/0/1_0_1",
        "chunks/0/0/18446744073709551617_0_1",
    ] {
        assert_eq!(read_object_name(name.as_bytes()), Err(no(13)), "{name}");
    }
}

#[test]
fn volume_names() {
    let with = |volume: &str| format!("{volume}/chunks/0/0/1_0_1").into_bytes();
    let longest = "a".repeat(63);
    for volume in ["a", "-", "0", "my-volume-7", &longest, "chunks"] {
        assert_eq!(read_full_name(&with(volume)), Ok(named(1, 0, 1)), "{volume}");
        assert_eq!(volume_of(&with(volume)), volume.as_bytes());
        assert_eq!(full_name(volume.as_bytes(), 1, 0, 1), Ok(with(volume)));
    }
    let too_long = "a".repeat(64);
    for volume in ["", "A", "a b", "a.b", "a/b", "\u{e9}", &too_long] {
        assert_eq!(read_full_name(&with(volume)), Err(no(13)), "{volume}");
        assert_eq!(volume_of(&with(volume)), b"");
        assert_eq!(full_name(volume.as_bytes(), 1, 0, 1), Err(no(13)));
    }
    assert_eq!(read_full_name(b"chunks/0/0/1_0_1"), Err(no(13)));
}
