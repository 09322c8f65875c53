//! A plan made elsewhere for a read across the chunks of a file, judged by the archive and in Rust.

use ezumokarin::{judge_plan, Judged};

use super::{File, FIRST};
use crate::record::CHUNK;
use crate::yard::judge::{Judge, Lists};

impl File {
    /// None where it is refused.
    #[inline]
    pub fn judge(&self, block_size: u32, plan: &[u8]) -> Option<Judged> {
        let (first, block) = (u64::from(FIRST), block_size.into());
        let count = self.lengths.len() as u64 * u64::from(CHUNK);
        let end = first * u64::from(CHUNK) + count;
        judge_plan(&self.lists, &self.lengths, first, end, block, 0, count, plan).ok()
    }

    #[inline]
    pub fn judge_in_rust(&self, block_size: u32, plan: &[u8], by: &mut Judge) -> Option<Judged> {
        let lists = Lists { lists: &self.lists, lengths: &self.lengths, first: FIRST };
        by.judge(lists, block_size, plan)
    }
}
