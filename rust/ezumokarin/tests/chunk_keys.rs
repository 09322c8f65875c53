//! Redis and TKV chunk keys, written and read, and the buffers they are written into.

use ezumokarin::{read_redis_key, read_tkv_key, write_redis_key, write_tkv_key, ChunkKey, Refusal};

fn redis(inode: u64, index: u64) -> Result<String, Refusal> {
    let mut out = [0; 192];
    let count = write_redis_key(inode, index, &mut out)?;
    Ok(String::from_utf8(out[..count].to_vec()).expect("a key in ASCII"))
}

#[test]
fn redis_keys_written() {
    assert_eq!(redis(100, 0).as_deref(), Ok("c100_0"));
    let largest = "c18446744073709551615_4294967295";
    assert_eq!(redis(u64::MAX, 4_294_967_295).as_deref(), Ok(largest));
    assert_eq!(redis(100, 4_294_967_296), Err(Refusal::Form));
}

#[test]
fn redis_keys_read() {
    for (key, inode, index) in
        [("c100_0", 100, 0), ("c18446744073709551615_4294967295", u64::MAX, 4_294_967_295)]
    {
        assert_eq!(read_redis_key(key.as_bytes()), Ok(ChunkKey { inode, index }));
    }
    for key in ["c100_0,5", "c0100_0", "c18446744073709551616_0", "c100_4294967296", "c100_"] {
        assert_eq!(read_redis_key(key.as_bytes()), Err(Refusal::Form), "{key}");
    }
}

/// Inode little-endian, index big-endian.
#[test]
fn tkv_keys_both_ways() {
    for (inode, index, key) in [
        (100, 0, b"A\x64\0\0\0\0\0\0\0C\0\0\0\0"),
        (0x0102_0304_0506_0708, 0x0a0b_0c0d, b"A\x08\x07\x06\x05\x04\x03\x02\x01C\x0a\x0b\x0c\x0d"),
    ] {
        let mut out = [0; 14];
        assert_eq!(write_tkv_key(inode, index, &mut out), Ok(14));
        assert_eq!(&out, key);
        assert_eq!(read_tkv_key(key), Ok(ChunkKey { inode, index }));
    }
}

#[test]
fn tkv_keys_refused() {
    for (what, key) in [
        ("13 bytes", &b"A\x64\0\0\0\0\0\0\0C\0\0\0"[..]),
        ("15 bytes", b"A\x64\0\0\0\0\0\0\0C\0\0\0\0\0"),
        ("another letter", b"A\x64\0\0\0\0\0\0\0c\0\0\0\0"),
    ] {
        assert_eq!(read_tkv_key(key), Err(Refusal::Form), "{what}");
    }
}

/// A buffer that is too short keeps its bytes, one with room to spare keeps those behind the
/// answer, and 13 stands before 12.
#[test]
fn buffers() {
    let mut short = *b".....";
    assert_eq!(write_redis_key(100, 0, &mut short), Err(Refusal::Buffer));
    assert_eq!(&short, b".....");
    assert_eq!(write_redis_key(100, 4_294_967_296, &mut short), Err(Refusal::Form));
    assert_eq!(&short, b".....");
    let mut long = *b"........";
    assert_eq!(write_redis_key(100, 0, &mut long), Ok(6));
    assert_eq!(&long, b"c100_0..");
}
