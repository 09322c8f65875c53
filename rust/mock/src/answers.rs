//! The answers of `second` as the structs of the C interface.
#![allow(non_camel_case_types)]

use second::{Answer, ChunkKey, Compacted, Found, ListRefusal, ObjectName, Record, Refusal};

#[repr(C)]
#[derive(Default)]
pub struct ezk_answer {
    refusal: u64,
    place: u64,
    count: u64,
}

#[repr(C)]
#[derive(Default)]
pub struct ezk_found {
    refusal: u64,
    place: u64,
    found: u64,
    segment: u64,
    pos: u64,
    id: u64,
    size: u64,
    off: u64,
    len: u64,
}

#[repr(C)]
#[derive(Default)]
pub struct ezk_file_answer {
    refusal: u64,
    place: u64,
    index: u64,
    count: u64,
}

#[repr(C)]
#[derive(Default)]
pub struct ezk_compacted {
    refusal: u64,
    place: u64,
    plan: u64,
    list: u64,
}

#[repr(C)]
#[derive(Default)]
pub struct ezk_part {
    refusal: u64,
    place: u64,
    rewritten: u64,
    offset: u64,
    length: u64,
}

#[repr(C)]
#[derive(Default)]
pub struct ezk_object {
    refusal: u64,
    place: u64,
    id: u64,
    block: u64,
    length: u64,
    volume: u64,
}

#[repr(C)]
#[derive(Default)]
pub struct ezk_chunk_key {
    refusal: u64,
    place: u64,
    inode: u64,
    index: u64,
}

pub fn answered(answer: Answer) -> ezk_answer {
    match answer {
        Ok(count) => ezk_answer { count: count as u64, ..ezk_answer::default() },
        Err(Refusal { number, place }) => ezk_answer { refusal: number, place, count: 0 },
    }
}

pub fn found(answer: Result<Option<Found>, Refusal>) -> ezk_found {
    match answer {
        Ok(None) => ezk_found::default(),
        Ok(Some(Found { segment, record: Record { pos, id, size, off, len } })) => {
            ezk_found { found: 1, segment, pos, id, size, off, len, ..ezk_found::default() }
        }
        Err(Refusal { number, place }) => {
            ezk_found { refusal: number, place, ..ezk_found::default() }
        }
    }
}

pub fn across(answer: Result<usize, ListRefusal>) -> ezk_file_answer {
    match answer {
        Ok(count) => ezk_file_answer { count: count as u64, ..ezk_file_answer::default() },
        Err(ListRefusal { refusal: Refusal { number, place }, index }) => {
            ezk_file_answer { refusal: number, place, index, count: 0 }
        }
    }
}

pub fn compacted(answer: Result<Compacted, Refusal>) -> ezk_compacted {
    match answer {
        Ok(Compacted { plan, list }) => {
            ezk_compacted { plan: plan as u64, list: list as u64, ..ezk_compacted::default() }
        }
        Err(Refusal { number, place }) => {
            ezk_compacted { refusal: number, place, ..ezk_compacted::default() }
        }
    }
}

/// The part is the end of the newer list, or all of it.
pub fn part(newer: &[u8], added: &[u8], rewritten: Result<bool, Refusal>) -> ezk_part {
    match rewritten {
        Ok(rewritten) => {
            let (offset, length) = ((newer.len() - added.len()) as u64, added.len() as u64);
            ezk_part { rewritten: rewritten.into(), offset, length, ..ezk_part::default() }
        }
        Err(Refusal { number, place }) => {
            ezk_part { refusal: number, place, ..ezk_part::default() }
        }
    }
}

pub fn object(answer: Result<ObjectName, Refusal>, volume: &[u8]) -> ezk_object {
    match answer {
        Ok(ObjectName { id, block, length }) => {
            ezk_object { id, block, length, volume: volume.len() as u64, ..ezk_object::default() }
        }
        Err(Refusal { number, place }) => {
            ezk_object { refusal: number, place, ..ezk_object::default() }
        }
    }
}

pub fn key(answer: Result<ChunkKey, Refusal>) -> ezk_chunk_key {
    match answer {
        Ok(ChunkKey { inode, index }) => ezk_chunk_key { inode, index, ..ezk_chunk_key::default() },
        Err(Refusal { number, place }) => {
            ezk_chunk_key { refusal: number, place, ..ezk_chunk_key::default() }
        }
    }
}
