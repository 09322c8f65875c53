//! Answers of the second program as the C interface gives them, each with its refusal's
//! number in front, 0 for none.

mod judge;
mod next;

pub use judge::judged;
pub use next::{file_next, next};

use ezumokarin::sys::{ezk_answer, ezk_chunk_key, ezk_compacted, ezk_file_answer};
use ezumokarin::sys::{ezk_found, ezk_object, ezk_part};
use second::{Answer, ChunkKey, Compacted, Found, ListRefusal, ObjectName, Record, Refusal};

pub fn answered(answer: Answer) -> (u64, ezk_answer) {
    match answer {
        Ok(count) => (0, ezk_answer { count: count as u64, ..Default::default() }),
        Err(Refusal { number, place }) => {
            (number, ezk_answer { refusal: number, place, ..Default::default() })
        }
    }
}

pub fn found(answer: Result<Option<Found>, Refusal>) -> (u64, ezk_found) {
    match answer {
        Ok(None) => (0, ezk_found::default()),
        Ok(Some(Found { segment, record: Record { pos, id, size, off, len } })) => {
            let found = 1;
            (0, ezk_found { found, segment, pos, id, size, off, len, ..Default::default() })
        }
        Err(Refusal { number, place }) => {
            (number, ezk_found { refusal: number, place, ..Default::default() })
        }
    }
}

pub fn across(answer: Result<usize, ListRefusal>) -> (u64, ezk_file_answer) {
    match answer {
        Ok(count) => (0, ezk_file_answer { count: count as u64, ..Default::default() }),
        Err(ListRefusal { refusal: Refusal { number, place }, index }) => {
            (number, ezk_file_answer { refusal: number, place, index, ..Default::default() })
        }
    }
}

pub fn compacted(answer: Result<Compacted, Refusal>) -> (u64, ezk_compacted) {
    match answer {
        Ok(Compacted { plan, list }) => {
            (0, ezk_compacted { plan: plan as u64, list: list as u64, ..Default::default() })
        }
        Err(Refusal { number, place }) => {
            (number, ezk_compacted { refusal: number, place, ..Default::default() })
        }
    }
}

/// The second program answers in two calls. Its part is the end of the newer list, or all of it.
pub fn part(older: &[u8], newer: &[u8]) -> (u64, ezk_part) {
    match second::rewritten(older, newer) {
        Ok(rewritten) => {
            let length = second::added(older, newer).len() as u64;
            let offset = newer.len() as u64 - length;
            (0, ezk_part { rewritten: rewritten.into(), offset, length, ..Default::default() })
        }
        Err(Refusal { number, place }) => {
            (number, ezk_part { refusal: number, place, ..Default::default() })
        }
    }
}

pub fn object(answer: Result<ObjectName, Refusal>, volume: &[u8]) -> (u64, ezk_object) {
    match answer {
        Ok(ObjectName { id, block, length }) => {
            let volume = volume.len() as u64;
            (0, ezk_object { id, block, length, volume, ..Default::default() })
        }
        Err(Refusal { number, place }) => {
            (number, ezk_object { refusal: number, place, ..Default::default() })
        }
    }
}

pub fn chunk_key(answer: Result<ChunkKey, Refusal>) -> (u64, ezk_chunk_key) {
    match answer {
        Ok(ChunkKey { inode, index }) => (0, ezk_chunk_key { inode, index, ..Default::default() }),
        Err(Refusal { number, place }) => {
            (number, ezk_chunk_key { refusal: number, place, ..Default::default() })
        }
    }
}
