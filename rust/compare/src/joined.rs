//! The lists of some chunks of a file, joined, and their lengths, which may be wrong.

use second::limits::CHUNK;
use second::File;

#[derive(Clone, Debug)]
pub struct Joined {
    pub lists: Vec<u8>,
    pub lengths: Vec<u64>,
    pub first_index: u64,
    pub file_len: u64,
}

impl Joined {
    pub fn of(lists: &[Vec<u8>], first_index: u64, file_len: u64) -> Joined {
        let lengths = lists.iter().map(|list| list.len() as u64).collect();
        Joined { lists: lists.concat(), lengths, first_index, file_len }
    }

    pub fn file(&self) -> File<'_> {
        let Joined { lists, lengths, first_index, file_len } = self;
        File { lists, lengths, first_index: *first_index, file_len: *file_len }
    }

    /// The lists by themselves, of lengths that add up.
    pub fn each(&self) -> Vec<&[u8]> {
        let mut rest = &self.lists[..];
        let mut lists = Vec::new();
        for length in &self.lengths {
            let (list, behind) = rest.split_at(*length as usize);
            lists.push(list);
            rest = behind;
        }
        lists
    }

    /// The file's end, counted from the first list's chunk.
    pub fn file_end(&self) -> u64 {
        self.file_len.saturating_sub(self.first_index.saturating_mul(CHUNK))
    }

    /// How many bytes the lists' chunks have.
    pub fn of_lists(&self) -> u64 {
        self.lengths.len() as u64 * CHUNK
    }
}
