//! Makes one call through a binding of the archive and by the second program, and says what differs.

mod file;
mod judge;
mod next;
mod two;

use std::fmt::Debug;

use ezumokarin::sys::{ezk_answer, ezk_compacted};
use second::Refusal;

use crate::binding::Binding;
use crate::call::{Call, Room};
use crate::expected::{answered, chunk_key, compacted, found, object};
use crate::lent::Lent;

/// Room that is lent where there will be no answer to fill it.
const REFUSED_ROOM: usize = 48;

/// The refusal that the second program gives, 0 for none, and what differs.
pub struct Seen {
    pub refusal: u64,
    pub faults: Vec<String>,
}

/// `shift` moves the lent memory, so that no alignment is special.
pub fn run(binding: &Binding, call: &Call, shift: usize) -> Seen {
    match call {
        Call::Check { list } => {
            reading(list, shift, binding.check, |list| answered(second::check(list)))
        }
        Call::View { list, chunk_len, out } => {
            let want = second::view_bytes(list, *chunk_len);
            writing(list, want, *out, shift, |list, out| (binding.view)(list, *chunk_len, out))
        }
        Call::Find { view, segments, position } => reading(
            view,
            shift,
            |view| (binding.find)(view, *segments, *position),
            |view| found(second::find(view, *segments, *position)),
        ),
        Call::Tidy { list, out } => {
            writing(list, second::tidy_bytes(list), *out, shift, binding.tidy)
        }
        Call::ReadPlan { list, index, chunk_len, block_size, start, count, out } => {
            let want =
                second::read_plan_bytes(list, *index, *chunk_len, *block_size, *start, *count);
            writing(list, want, *out, shift, |list, out| {
                (binding.read_plan)(list, *index, *chunk_len, *block_size, *start, *count, out)
            })
        }
        Call::FilePlan { file, block_size, start, count, out } => {
            file::writing(file, (*block_size, *start, *count), *out, shift, binding.file_plan)
        }
        Call::NextPiece { list, index, chunk_len, block_size, start, count, at } => {
            let read = [*index, *chunk_len, *block_size, *start, *count];
            next::of_chunk(list, read, *at, shift, binding.next_piece)
        }
        Call::NextFilePiece { file, block_size, start, count, at } => {
            let read = (*block_size, *start, *count);
            next::of_file(file, read, *at, shift, binding.next_file_piece)
        }
        Call::JudgePlan { file, block_size, start, count, plan } => {
            let read = (*block_size, *start, *count);
            judge::reading(file, read, plan, shift, binding.judge_plan)
        }
        Call::Compact { list, index, block_size, k, new_id, plan, new_list } => {
            let want = second::compact_bytes(list, *index, *block_size, *k, *new_id);
            compacting(list, want, (*plan, *new_list), shift, |list, plan, new_list| {
                (binding.compact)(list, *index, *block_size, *k, *new_id, plan, new_list)
            })
        }
        Call::Added { pair } => two::reading(pair, shift, binding.added),
        Call::WriteObjectName { id, block, length, out } => {
            let want = second::object_name(*id, *block, *length);
            writing(&[], want, *out, shift, |_, out| {
                (binding.write_object_name)(*id, *block, *length, out)
            })
        }
        Call::WriteFullName { volume, id, block, length, out } => {
            let want = second::full_name(volume, *id, *block, *length);
            writing(volume, want, *out, shift, |volume, out| {
                (binding.write_full_name)(volume, *id, *block, *length, out)
            })
        }
        Call::WriteRedisKey { inode, index, out } => {
            let want = second::redis_key(*inode, *index);
            writing(&[], want, *out, shift, |_, out| (binding.write_redis_key)(*inode, *index, out))
        }
        Call::WriteTkvKey { inode, index, out } => {
            let want = second::tkv_key(*inode, *index);
            writing(&[], want, *out, shift, |_, out| (binding.write_tkv_key)(*inode, *index, out))
        }
        Call::ReadObjectName { name } => reading(name, shift, binding.read_object_name, |name| {
            object(second::read_object_name(name), b"")
        }),
        Call::ReadFullName { name } => reading(name, shift, binding.read_full_name, |name| {
            object(second::read_full_name(name), second::volume_of(name))
        }),
        Call::ReadRedisKey { key } => reading(key, shift, binding.read_redis_key, |key| {
            chunk_key(second::read_redis_key(key))
        }),
        Call::ReadTkvKey { key } => {
            reading(key, shift, binding.read_tkv_key, |key| chunk_key(second::read_tkv_key(key)))
        }
    }
}

/// A call that only reads.
fn reading<T: Debug + PartialEq>(
    input: &[u8],
    shift: usize,
    archive: impl Fn(&[u8]) -> T,
    plain: impl Fn(&[u8]) -> (u64, T),
) -> Seen {
    let lent = Lent::holding(input, shift);
    let got = archive(lent.part());
    let (refusal, want) = plain(input);
    let mut seen = Seen { refusal, faults: Vec::new() };
    seen.same("answer", &got, &want);
    seen.kept("input", &lent, 0);
    seen
}

/// A call that writes one answer.
fn writing(
    input: &[u8],
    want: Result<Vec<u8>, Refusal>,
    room: Room,
    shift: usize,
    archive: impl Fn(&[u8], &mut [u8]) -> ezk_answer,
) -> Seen {
    let lent = Lent::holding(input, shift);
    let mut out = Lent::room(room.bytes(length(&want)), shift / 16);
    let mut plain_out = out.part().to_vec();
    let got = archive(lent.part(), out.part_mut());
    let (refusal, answer) = answered(second::put(want, &mut plain_out));
    let mut seen = Seen { refusal, faults: Vec::new() };
    seen.same("answer", &got, &answer);
    seen.same_bytes("buffer", out.part(), &plain_out);
    seen.kept("buffer", &out, got.count as usize);
    seen.kept("input", &lent, 0);
    seen
}

/// Compaction, which writes two answers.
fn compacting(
    input: &[u8],
    want: Result<(Vec<u8>, Vec<u8>), Refusal>,
    rooms: (Room, Room),
    shift: usize,
    archive: impl Fn(&[u8], &mut [u8], &mut [u8]) -> ezk_compacted,
) -> Seen {
    let lent = Lent::holding(input, shift);
    let lengths = match &want {
        Ok((plan, list)) => (plan.len(), list.len()),
        Err(_) => (REFUSED_ROOM, REFUSED_ROOM),
    };
    let mut plan = Lent::room(rooms.0.bytes(lengths.0), shift / 16);
    let mut list = Lent::room(rooms.1.bytes(lengths.1), shift / 4);
    let (mut plain_plan, mut plain_list) = (plan.part().to_vec(), list.part().to_vec());
    let got = archive(lent.part(), plan.part_mut(), list.part_mut());
    let (refusal, answer) = compacted(second::put_both(want, &mut plain_plan, &mut plain_list));
    let mut seen = Seen { refusal, faults: Vec::new() };
    seen.same("answer", &got, &answer);
    seen.same_bytes("plan", plan.part(), &plain_plan);
    seen.same_bytes("new list", list.part(), &plain_list);
    seen.kept("plan", &plan, got.plan as usize);
    seen.kept("new list", &list, got.list as usize);
    seen.kept("input", &lent, 0);
    seen
}

fn length(want: &Result<Vec<u8>, Refusal>) -> usize {
    want.as_ref().map_or(REFUSED_ROOM, Vec::len)
}

impl Seen {
    fn same<T: Debug + PartialEq>(&mut self, what: &str, got: &T, want: &T) {
        if got != want {
            self.faults.push(format!("{what}: archive {got:?}, second program {want:?}"));
        }
    }

    fn same_bytes(&mut self, what: &str, got: &[u8], want: &[u8]) {
        if got != want {
            self.faults.push(format!("{what}: archive {got:02x?}, second program {want:02x?}"));
        }
    }

    fn kept(&mut self, what: &str, lent: &Lent, written: usize) {
        if let Some(fault) = lent.touched(written) {
            self.faults.push(format!("{what}: {fault}"));
        }
    }
}
