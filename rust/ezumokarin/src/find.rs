//! Seeking in a view.

use crate::refusal::passed;
use crate::{sys, Record, Refusal};

/// The segment of a view that holds a position.
#[derive(Clone, Copy, Debug, PartialEq, Eq, Hash)]
pub struct Found {
    /// Its number in the view, from 0.
    pub segment: u64,
    /// Its run.
    pub run: Record,
}

/// Finds, by halving, the segment of a view that holds a position. `view` is what
/// [`view`](crate::view()) wrote, and `segments` the number of its records: the bytes written
/// divided by [`Record::LEN`]. `view` may also be the whole buffer, if its length is a multiple of
/// 24. The length that the refusal means is that of `view`. Refusal: 1.
///
/// ```
/// use ezumokarin::{find, view, Found, Record, Refusal};
/// // One slice of 20 bytes, eight of them hidden by zeros.
/// let slice = Record { pos: 0, id: 7, size: 20, off: 0, len: 20 };
/// let zeros = Record { pos: 4, id: 0, size: 0, off: 0, len: 8 };
/// let mut out = [0; 5 * Record::LEN];
/// let count = view(&[slice.to_bytes(), zeros.to_bytes()].concat(), 20, &mut out)?;
/// let segments = (count / Record::LEN) as u64;
///
/// // Made once, the view is sought in often.
/// assert_eq!(find(&out, segments, 11)?, Some(Found { segment: 1, run: zeros }));
/// let run = Record { pos: 12, id: 7, size: 20, off: 12, len: 8 };
/// assert_eq!(find(&out, segments, 12)?, Some(Found { segment: 2, run }));
/// assert_eq!(find(&out, segments, 20)?, None);
/// assert_eq!(find(&out[..25], 1, 0), Err(Refusal::ListLength));
/// # Ok::<(), Refusal>(())
/// ```
///
/// In a view with its number of segments every position below the chunk length finds its segment,
/// and every other none. A number above that of all records, such as a count of bytes, is taken as
/// that of all; a segment at or past the number is never found. In bytes that are no view the
/// answer is none, or a segment that holds the position.
///
/// ```
/// use ezumokarin::{find, Record};
/// let late = Record { pos: 10, id: 7, size: 5, off: 0, len: 5 };
/// let early = Record { pos: 0, ..late };
/// let no_view = [late.to_bytes(), early.to_bytes()].concat();
/// assert_eq!(find(&no_view, 2, 3)?.map(|found| found.segment), Some(1));
/// assert_eq!(find(&no_view, 2, 10)?, None);
/// # Ok::<(), ezumokarin::Refusal>(())
/// ```
pub fn find(view: &[u8], segments: u64, position: u64) -> Result<Option<Found>, Refusal> {
    let answer = sys::find(view, segments, position);
    passed(answer.refusal, answer.place)?;
    Ok((answer.found == 1).then(|| Found { segment: answer.segment, run: run(&answer) }))
}

/// All numbers but the id have four bytes in a view.
fn run(answer: &sys::ezk_found) -> Record {
    Record {
        pos: answer.pos as u32,
        id: answer.id,
        size: answer.size as u32,
        off: answer.off as u32,
        len: answer.len as u32,
    }
}
