//! Safe calls into `libezumokarin.a`, which reads and tidies the slice lists of a
//! JuiceFS volume and makes read plans, compaction plans, object names and chunk keys.
//!
//! Any bytes and any numbers may be passed. Each call ends with an answer or with a
//! [`Refusal`]; a refused call changes no byte of a buffer. A call needs less than 96 KiB of stack.
//!
//! ```
//! use ezumokarin::{records, view, Record, CHUNK};
//!
//! // One slice of 20 bytes, eight of them hidden by zeros.
//! let slice = Record { pos: 0, id: 7, size: 20, off: 0, len: 20 };
//! let zeros = Record { pos: 4, id: 0, size: 0, off: 0, len: 8 };
//! let list = [slice.to_bytes(), zeros.to_bytes()].concat();
//!
//! let mut out = [0; 5 * Record::LEN];
//! let count = view(&list, 20, &mut out)?;
//! let runs: Vec<Record> = records(&out[..count]).collect();
//! assert_eq!(runs[0], Record { pos: 0, id: 7, size: 20, off: 0, len: 4 });
//! assert_eq!(runs[1], Record { pos: 4, id: 0, size: 0, off: 0, len: 8 });
//! assert_eq!(runs[2], Record { pos: 12, id: 7, size: 20, off: 12, len: 8 });
//! assert_eq!(view(&list, CHUNK + 1, &mut out), Err(ezumokarin::Refusal::ChunkLength));
//! # Ok::<(), ezumokarin::Refusal>(())
//! ```
#![deny(unsafe_code)]
#![warn(missing_docs)]

mod files;
mod find;
mod history;
mod judge;
mod keys;
mod lists;
mod names;
mod next;
mod piece;
mod record;
mod refusal;
#[allow(unsafe_code)]
pub mod sys;
mod walk;

pub use files::{file_plan, ListRefusal};
pub use find::{find, Found};
pub use history::{added, Added};
pub use judge::{judge_plan, Judged};
pub use keys::{read_redis_key, read_tkv_key, write_redis_key, write_tkv_key, ChunkKey};
pub use lists::{check, compact, read_plan, tidy, view, Compacted};
pub use names::{read_full_name, read_object_name, FullName, ObjectName};
pub use names::{write_full_name, write_object_name};
pub use next::{next_file_piece, next_piece, Next};
pub use piece::{pieces, Location, Piece};
pub use record::{records, Record};
pub use refusal::Refusal;
pub use walk::{file_pieces, read_pieces, FilePieces, ReadPieces};

/// Bytes of a chunk: 64 MiB.
pub const CHUNK: u64 = 67_108_864;
