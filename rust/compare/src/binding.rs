//! The two ways into the archive: through the Rust crate's declarations, and through C that
//! was compiled from the header. Every call is made both ways.

use ezumokarin::sys::{self, ezk_answer, ezk_chunk_key, ezk_compacted, ezk_file_answer};
use ezumokarin::sys::{ezk_file_next, ezk_found, ezk_judged, ezk_next, ezk_object, ezk_part};

use crate::header;

/// One call for each function of the archive.
#[allow(clippy::type_complexity)] // these are the calls' own signatures
pub struct Binding {
    pub name: &'static str,
    pub check: fn(&[u8]) -> ezk_answer,
    pub view: fn(&[u8], u64, &mut [u8]) -> ezk_answer,
    pub find: fn(&[u8], u64, u64) -> ezk_found,
    pub tidy: fn(&[u8], &mut [u8]) -> ezk_answer,
    pub read_plan: fn(&[u8], u64, u64, u64, u64, u64, &mut [u8]) -> ezk_answer,
    pub file_plan: fn(&[u8], &[u64], u64, u64, u64, u64, u64, &mut [u8]) -> ezk_file_answer,
    pub next_piece: fn(&[u8], u64, u64, u64, u64, u64, u64) -> ezk_next,
    pub next_file_piece: fn(&[u8], &[u64], u64, u64, u64, u64, u64, u64) -> ezk_file_next,
    pub judge_plan: fn(&[u8], &[u64], u64, u64, u64, u64, u64, &[u8]) -> ezk_judged,
    pub compact: fn(&[u8], u64, u64, u64, u64, &mut [u8], &mut [u8]) -> ezk_compacted,
    pub added: fn(&[u8], &[u8]) -> ezk_part,
    pub write_object_name: fn(u64, u64, u64, &mut [u8]) -> ezk_answer,
    pub write_full_name: fn(&[u8], u64, u64, u64, &mut [u8]) -> ezk_answer,
    pub read_object_name: fn(&[u8]) -> ezk_object,
    pub read_full_name: fn(&[u8]) -> ezk_object,
    pub write_redis_key: fn(u64, u64, &mut [u8]) -> ezk_answer,
    pub write_tkv_key: fn(u64, u64, &mut [u8]) -> ezk_answer,
    pub read_redis_key: fn(&[u8]) -> ezk_chunk_key,
    pub read_tkv_key: fn(&[u8]) -> ezk_chunk_key,
}

const RUST: Binding = Binding {
    name: "Rust crate",
    check: sys::check,
    view: sys::view,
    find: sys::find,
    tidy: sys::tidy,
    read_plan: sys::read_plan,
    file_plan: sys::file_plan,
    next_piece: sys::next_piece,
    next_file_piece: sys::next_file_piece,
    judge_plan: sys::judge_plan,
    compact: sys::compact,
    added: sys::added,
    write_object_name: sys::write_object_name,
    write_full_name: sys::write_full_name,
    read_object_name: sys::read_object_name,
    read_full_name: sys::read_full_name,
    write_redis_key: sys::write_redis_key,
    write_tkv_key: sys::write_tkv_key,
    read_redis_key: sys::read_redis_key,
    read_tkv_key: sys::read_tkv_key,
};

pub static BINDINGS: [Binding; 2] = [RUST, header::BINDING];
