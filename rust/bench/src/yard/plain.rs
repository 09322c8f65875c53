//! The sweep as one would first write it: the set is searched at each segment, and the source of a
//! run is held until it ends.

use crate::record::{Record, RecordBytes, CHUNK, RECORD};
use crate::yard::check::checked;
use crate::yard::room::written;
use crate::yard::source::Source;
use crate::yard::sweep::Spans;
use crate::yard::Room;

#[inline(never)]
pub fn view(list: &[u8], room: &mut Room, out: &mut [u8]) -> Option<usize> {
    let Room { spans, sizes, aside, .. } = room;
    let records = checked(list, sizes)?;
    spans.take(records);
    let most = (2 * records.len() + 1) * RECORD;
    written(out, aside, most, |out| write(spans, records, out))
}

/// The run that isn't ended yet.
struct Run<'a> {
    pos: u32,
    source: Source,
    out: &'a mut [RecordBytes],
    count: usize,
}

impl Run<'_> {
    /// A segment goes on with the run, or ends it and begins another.
    #[inline(always)]
    fn segment(&mut self, pos: u32, source: Source) {
        if self.source.after(pos - self.pos) != source {
            self.end(pos);
            (self.pos, self.source) = (pos, source);
        }
    }

    #[inline(always)]
    fn end(&mut self, at: u32) {
        if at != self.pos {
            self.source.run(self.pos, at - self.pos).write(&mut self.out[self.count]);
            self.count += 1;
        }
    }
}

/// Writes the runs; there is room for all.
#[inline(always)]
fn write(spans: &Spans, records: &[RecordBytes], out: &mut [u8]) -> usize {
    let (out, _) = out.as_chunks_mut::<RECORD>();
    let mut run = Run { pos: 0, source: Source::Nothing, out, count: 0 };
    spans.searched(CHUNK, |at, top| {
        let source = match top {
            None => Source::Nothing,
            Some(number) => Source::of(&Record::from_bytes(&records[number as usize]), at),
        };
        run.segment(at, source);
    });
    run.end(CHUNK);
    run.count * RECORD
}
