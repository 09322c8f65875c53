//! A call that reads the lists of several chunks and their lengths, and writes one answer.

use ezumokarin::sys::ezk_file_answer;
use second::{file_plan_bytes, put, ListRefusal};

use super::{Seen, REFUSED_ROOM};
use crate::call::Room;
use crate::expected::across;
use crate::joined::Joined;
use crate::lent::Lent;

/// A length that no list has; one stands on each side of the lengths.
const GUARD: u64 = 0xeeee_eeee_eeee_eeee;

type FilePlan = fn(&[u8], &[u64], u64, u64, u64, u64, u64, &mut [u8]) -> ezk_file_answer;

/// The lists of a file and their lengths, lent between guards.
pub struct LentLists {
    pub lists: Lent,
    lengths: Vec<u64>,
}

impl LentLists {
    pub fn of(file: &Joined, shift: usize) -> LentLists {
        LentLists { lists: Lent::holding(&file.lists, shift), lengths: guarded(&file.lengths) }
    }

    pub fn lengths(&self) -> &[u64] {
        &self.lengths[1..self.lengths.len() - 1]
    }

    /// Both are still those of the file.
    pub fn kept(&self, file: &Joined, seen: &mut Seen) {
        seen.kept("lists", &self.lists, 0);
        seen.same("lengths", &self.lengths, &guarded(&file.lengths));
    }
}

fn guarded(lengths: &[u64]) -> Vec<u64> {
    [&[GUARD], lengths, &[GUARD]].concat()
}

pub fn writing(
    file: &Joined,
    (block_size, start, count): (u64, u64, u64),
    room: Room,
    shift: usize,
    archive: FilePlan,
) -> Seen {
    let want = file_plan_bytes(&file.file(), block_size, start, count);
    let lent = LentLists::of(file, shift);
    let length = want.as_ref().map_or(REFUSED_ROOM, Vec::len);
    let mut out = Lent::room(room.bytes(length), shift / 16);
    let mut plain_out = out.part().to_vec();
    let Joined { first_index, file_len, .. } = *file;
    let (lists, lengths, buffer) = (lent.lists.part(), lent.lengths(), out.part_mut());
    let got = archive(lists, lengths, first_index, file_len, block_size, start, count, buffer);
    let (refusal, answer) = across(written(want, &mut plain_out));
    let mut seen = Seen { refusal, faults: Vec::new() };
    seen.same("answer", &got, &answer);
    seen.same_bytes("buffer", out.part(), &plain_out);
    seen.kept("buffer", &out, got.count as usize);
    lent.kept(file, &mut seen);
    seen
}

/// Refusal 12 where the plan doesn't fit.
fn written(want: Result<Vec<u8>, ListRefusal>, out: &mut [u8]) -> Result<usize, ListRefusal> {
    put(Ok(want?), out).map_err(|refusal| ListRefusal { refusal, index: 0 })
}
