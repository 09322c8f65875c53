//! Files: the lists of chunks, joined, and plans across them.

use second::limits::PIECE;
use second::{file_plan_bytes, File, ListRefusal, Location, Piece};

use super::{list, no, no_at, Row, BLOCK};

/// Lists one behind the other, and their lengths.
pub struct Joined {
    pub lists: Vec<u8>,
    pub lengths: Vec<u64>,
}

impl Joined {
    pub fn new(lists: &[Vec<u8>]) -> Joined {
        let lengths = lists.iter().map(|list| list.len() as u64).collect();
        Joined { lists: lists.concat(), lengths }
    }

    pub fn of_rows(rows: &[&[Row]]) -> Joined {
        Joined::new(&rows.iter().map(|rows| list(rows)).collect::<Vec<_>>())
    }

    pub fn file(&self, first_index: u64, file_len: u64) -> File<'_> {
        File { lists: &self.lists, lengths: &self.lengths, first_index, file_len }
    }
}

/// Chunk index, place, where the bytes lie, length.
pub type Line = (u64, u64, Location, u64);

pub fn planned(file: &File, start: u64, count: u64) -> Vec<Line> {
    lines(&file_plan_bytes(file, BLOCK, start, count).expect("a plan"))
}

pub fn lines(plan: &[u8]) -> Vec<Line> {
    plan.chunks(PIECE).map(Piece::from_bytes).map(|p| (p.index, p.place, p.from, p.len)).collect()
}

/// A refusal where no list is at fault.
pub fn of_none(number: u64) -> ListRefusal {
    ListRefusal { refusal: no(number), index: 0 }
}

/// The refusal of a chunk's list.
pub fn of_list(index: u64, number: u64, place: u64) -> ListRefusal {
    ListRefusal { refusal: no_at(number, place), index }
}
