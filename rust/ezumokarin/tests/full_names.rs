//! Full names, written and read.

use ezumokarin::sys::{self, ezk_object};
use ezumokarin::{read_full_name, write_full_name, FullName, ObjectName, Refusal};

fn written(volume: &str, id: u64) -> Result<String, Refusal> {
    let mut out = [0; 192];
    let count = write_full_name(volume.as_bytes(), id, 0, 4_194_304, &mut out)?;
    Ok(String::from_utf8(out[..count].to_vec()).expect("a name in ASCII"))
}

#[test]
fn names_written() {
    assert_eq!(written("media-1", 3).as_deref(), Ok("media-1/chunks/0/0/3_0_4194304"));
    for (volume, id) in [("", 3), ("Media", 3), ("media", 0)] {
        assert_eq!(written(volume, id), Err(Refusal::Form), "{volume} {id}");
    }
}

/// The volume is a part of the text that was read.
#[test]
fn names_read() {
    let object = ObjectName { id: 3, block: 0, length: 4_194_304 };
    for (name, volume) in
        [("media-1/chunks/0/0/3_0_4194304", "media-1"), ("chunks/chunks/0/0/3_0_4194304", "chunks")]
    {
        let read = read_full_name(name.as_bytes()).expect("a full name");
        assert_eq!(read, FullName { volume: volume.as_bytes(), object });
        assert_eq!(read.volume.as_ptr(), name.as_ptr());
    }
}

/// On refusal the volume is empty.
#[test]
fn names_refused_in_reading() {
    for name in ["chunks/0/0/3_0_4194304", "Media/chunks/0/0/3_0_4194304"] {
        assert_eq!(read_full_name(name.as_bytes()), Err(Refusal::Form), "{name}");
        let nothing = ezk_object { refusal: 13, ..Default::default() };
        assert_eq!(sys::read_full_name(name.as_bytes()), nothing, "{name}");
    }
}
