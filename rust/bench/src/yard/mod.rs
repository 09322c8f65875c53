//! The yardsticks: plain, optimised Rust that makes the archive's checks and gives its bytes.
//!
//! `walk` is quadratic, `tree` cuts the records into one another. The rest is the best we can
//! write: the records are sorted by position (`order`), a sweep over the chunk keeps the open ones
//! in a set of bits (`open`, `sweep`), and views, plans and compaction are written on the way.
//! `plain` is that sweep without its last refinements. The next piece of a read is found by a scan
//! (`scan`, `next`). A plan made elsewhere is set beside our own, in order of place (`judge`, `pass`,
//! `sites`). Names and keys (`texts`) have their digits from a table of pairs (`digits`), and
//! `written` writes them by Rust's own formatting.

pub mod check;
pub mod compact;
mod digits;
pub mod judge;
pub mod next;
mod open;
mod order;
mod pass;
pub mod plain;
pub mod plan;
mod room;
mod runs;
mod scan;
pub mod seek;
mod sites;
mod sizes;
mod source;
mod sweep;
pub mod texts;
pub mod tree;
pub mod view;
pub mod walk;
pub mod written;

pub use room::{most_pieces, Room};
