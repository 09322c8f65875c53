//! What is timed: first all programs must agree, then each is measured.

pub mod added;
mod calls;
mod check;
pub mod comparison;
pub mod file_next;
pub mod files;
mod joined;
pub mod judged;
pub mod judged_few;
pub mod next;
pub mod one_by_one;
mod row;
mod same;
mod seek;
mod texts;
pub mod written;

pub use row::{Row, Who};

/// Numbers of records; the view is also timed at the short ones.
pub const SHORT: [usize; 3] = [1, 2, 4];
pub const SIZES: [usize; 3] = [10, 200, 2_000];

/// The usual block size.
pub const BLOCK: u32 = 4_194_304;

/// The names of the calls in the rows.
pub const VIEW: &str = "view";
pub const TIDY: &str = "tidy";
pub const PLAN: &str = "read plan, blocks of 4 MiB";
pub const SMALL_PLAN: &str = "read plan, blocks of 64 KiB";
pub const COMPACT: &str = "compaction";
/// `ezk_file_plan`, by block size.
pub const FILES: [&str; 2] =
    ["plan of 16 chunks, blocks of 4 MiB", "plan of 16 chunks, blocks of 64 KiB"];
/// `ezk_next_piece`, of one record or hole, of many, and over a whole read; and
/// `ezk_next_file_piece`.
pub const NEXT: &str = "next piece";
pub const JOINED: &str = "next piece, joined";
pub const ONE_BY_ONE: &str = "pieces one by one";
pub const FILE_NEXT: &str = "next piece of 16 chunks";
/// `ezk_judge_plan`, by pieces and order; and of our own plans of short lists.
pub const JUDGED: [[&str; 3]; 2] = [
    [
        "judged plan of 1,000 pieces, in order",
        "judged plan of 1,000 pieces, reversed",
        "judged plan of 1,000 pieces, shuffled",
    ],
    [
        "judged plan of 100,000 pieces, in order",
        "judged plan of 100,000 pieces, reversed",
        "judged plan of 100,000 pieces, shuffled",
    ],
];
pub const JUDGED_FEW: [&str; 2] = ["judged short plan, in order", "judged short plan, reversed"];
pub const FIND: &str = "find";
pub const CHECK: &str = "check";
/// `ezk_added`, by how the newer list came from the older one.
pub const ADDED: [&str; 4] = [
    "added, one record more",
    "added, equal lists",
    "added, first byte rewritten",
    "added, last byte rewritten",
];
pub const BEGINS: &str = "comparison";
pub const NAMES: &str = "full name";
pub const KEYS: &str = "chunk keys";
/// Written alone. The rows' numbers of records are those of an id's digits.
pub const WRITTEN: [&str; 3] = ["Redis key, written", "short name, written", "full name, written"];

/// All rows, or what two programs differ in.
pub fn all() -> Result<Vec<Row>, String> {
    let mut rows = calls::rows()?;
    rows.extend(files::rows()?);
    rows.extend(next::rows()?);
    rows.extend(joined::rows()?);
    rows.extend(one_by_one::rows()?);
    rows.extend(file_next::rows()?);
    rows.extend(judged::rows()?);
    rows.extend(judged_few::rows()?);
    rows.extend(seek::rows()?);
    rows.extend(check::rows()?);
    rows.extend(added::rows()?);
    rows.extend(comparison::rows()?);
    rows.extend(written::rows()?);
    rows.extend(texts::rows()?);
    Ok(rows)
}

/// Enough lists that no branch is learnt by heart.
fn how_many(records: usize) -> usize {
    (4_000 / records).clamp(4, 64)
}
