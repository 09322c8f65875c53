//! A second implementation of every public call, written without reading `crates/`, from the
//! requirements and from the same written readings of their unclear points. So comparing the two
//! finds a slip of either, and not a reading that both share.
//!
//! It is meant to be read and believed, not to be fast: lists are resolved by
//! cutting the chunk at every record boundary and looking up each part, and
//! texts are read by writing the numbers found and comparing.
#![forbid(unsafe_code)]

mod answer;
mod check;
mod compaction;
mod file;
mod find;
mod history;
mod judge;
mod keys;
pub mod limits;
mod names;
mod next;
mod piece;
mod plan;
mod record;
mod refusal;
mod runs;
mod source;
pub mod store;
mod view;

pub use answer::{put, Answer};
pub use check::{block_size, check, chunk_length, records};
pub use compaction::{compact, compact_bytes, put_both, Compacted};
pub use file::{file_plan, file_plan_bytes, File, ListRefusal};
pub use find::{find, Found};
pub use history::{added, rewritten};
pub use judge::{judge, Judged, Wrong};
pub use keys::ChunkKey;
pub use keys::{read_redis_key, read_tkv_key, redis_key, tkv_key, write_redis_key, write_tkv_key};
pub use names::{full_name, object_name, read_full_name, read_object_name, volume_of};
pub use names::{write_full_name, write_object_name, ObjectName};
pub use next::{next_file_piece, next_piece, Next};
pub use piece::Piece;
pub use plan::{plan_bytes, read_plan, read_plan_bytes, Location};
pub use record::Record;
pub use refusal::Refusal;
pub use source::{source_at, Source};
pub use view::{tidy, tidy_bytes, view, view_bytes, view_of};
