//! The calls of an archive, as safe functions. Two archives can be timed in one run: the present
//! one, and another that was built before and whose calls bear other names.

use ezumokarin::sys::{self, ezk_answer};

use crate::record::{Record, CHUNK};
use crate::yard::compact::Order;
use crate::yard::seek::Found;

type Out = *mut u8;
type In = *const u8;

/// Its calls that resolve a list and write records, and those that write names and keys of digits.
/// Plans are those of the present archive alone: one that was built before may write other pieces.
#[derive(Clone, Copy)]
pub struct Library {
    view: unsafe extern "C" fn(In, usize, u64, Out, usize) -> ezk_answer,
    tidy: unsafe extern "C" fn(In, usize, Out, usize) -> ezk_answer,
    redis: unsafe extern "C" fn(u64, u64, Out, usize) -> ezk_answer,
    short: unsafe extern "C" fn(u64, u64, u64, Out, usize) -> ezk_answer,
    full: unsafe extern "C" fn(In, usize, u64, u64, u64, Out, usize) -> ezk_answer,
}

pub const NOW: Library = Library {
    view: sys::ezk_view,
    tidy: sys::ezk_tidy,
    redis: sys::ezk_write_redis_key,
    short: sys::ezk_write_object_name,
    full: sys::ezk_write_full_name,
};

#[cfg(not(before))]
pub const BEFORE: Option<Library> = None;

#[cfg(before)]
pub const BEFORE: Option<Library> = Some(Library {
    view: before::before_ezk_view,
    tidy: before::before_ezk_tidy,
    redis: before::before_ezk_write_redis_key,
    short: before::before_ezk_write_object_name,
    full: before::before_ezk_write_full_name,
});

#[cfg(before)]
mod before {
    use super::{ezk_answer, In, Out};

    extern "C" {
        pub fn before_ezk_view(l: In, n: usize, c: u64, o: Out, m: usize) -> ezk_answer;
        pub fn before_ezk_tidy(l: In, n: usize, o: Out, m: usize) -> ezk_answer;
        pub fn before_ezk_write_redis_key(i: u64, x: u64, o: Out, m: usize) -> ezk_answer;
        pub fn before_ezk_write_object_name(i: u64, b: u64, l: u64, o: Out, m: usize)
            -> ezk_answer;
        pub fn before_ezk_write_full_name(
            v: In,
            n: usize,
            i: u64,
            b: u64,
            l: u64,
            o: Out,
            m: usize,
        ) -> ezk_answer;
    }
}

// Safe because a slice is a pointer and a length that are good for the whole call.
impl Library {
    /// The view of the whole chunk.
    #[inline]
    pub fn view(&self, list: &[u8], out: &mut [u8]) -> Option<usize> {
        let (o, m) = (out.as_mut_ptr(), out.len());
        counted(unsafe { (self.view)(list.as_ptr(), list.len(), CHUNK.into(), o, m) })
    }

    #[inline]
    pub fn tidy(&self, list: &[u8], out: &mut [u8]) -> Option<usize> {
        let (o, m) = (out.as_mut_ptr(), out.len());
        counted(unsafe { (self.tidy)(list.as_ptr(), list.len(), o, m) })
    }

    #[inline]
    pub fn write_redis(&self, inode: u64, index: u64, out: &mut [u8]) -> Option<usize> {
        counted(unsafe { (self.redis)(inode, index, out.as_mut_ptr(), out.len()) })
    }

    #[inline]
    pub fn write_short(&self, id: u64, block: u64, length: u64, out: &mut [u8]) -> Option<usize> {
        counted(unsafe { (self.short)(id, block, length, out.as_mut_ptr(), out.len()) })
    }

    #[inline]
    pub fn write_name(
        &self,
        volume: &[u8],
        id: u64,
        block: u64,
        length: u64,
        out: &mut [u8],
    ) -> Option<usize> {
        let (v, n, o, m) = (volume.as_ptr(), volume.len(), out.as_mut_ptr(), out.len());
        counted(unsafe { (self.full)(v, n, id, block, length, o, m) })
    }
}

/// The plan of the whole chunk.
#[inline]
pub fn read_plan(list: &[u8], index: u32, block_size: u32, out: &mut [u8]) -> Option<usize> {
    let (l, n, o, m) = (list.as_ptr(), list.len(), out.as_mut_ptr(), out.len());
    let (i, b, chunk) = (index.into(), block_size.into(), u64::from(CHUNK));
    counted(unsafe { sys::ezk_read_plan(l, n, i, chunk, b, 0, chunk, o, m) })
}

#[inline]
pub fn compact(
    list: &[u8],
    order: Order,
    plan: &mut [u8],
    new_list: &mut [u8],
) -> Option<(usize, usize)> {
    let (l, n, p, m) = (list.as_ptr(), list.len(), plan.as_mut_ptr(), plan.len());
    let (o, q) = (new_list.as_mut_ptr(), new_list.len());
    let (i, b, k) = (order.index.into(), order.block_size.into(), order.k as u64);
    let answer = unsafe { sys::ezk_compact(l, n, i, b, k, order.new_id, p, m, o, q) };
    (answer.refusal == 0).then_some((answer.plan as usize, answer.list as usize))
}

fn counted(answer: ezk_answer) -> Option<usize> {
    (answer.refusal == 0).then_some(answer.count as usize)
}

/// Seeks in the bytes of a view; all of them are segments.
#[inline]
pub fn find(view: &[u8], position: u32) -> Found {
    let segments = (view.len() / crate::record::RECORD) as u64;
    let f = unsafe { sys::ezk_find(view.as_ptr(), view.len(), segments, position.into()) };
    let (pos, id, size) = (f.pos as u32, f.id, f.size as u32);
    let segment = Record { pos, id, size, off: f.off as u32, len: f.len as u32 };
    (f.refusal == 0 && f.found == 1).then_some((f.segment as usize, segment))
}
