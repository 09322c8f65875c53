//! Ten shapes of list, for any number of records up to the limit. All lists pass the checks: each
//! slice has a number of its own, so it has one size.

use crate::record::{Record, CHUNK};
use rng::Rng;

pub struct Shape {
    pub name: &'static str,
    /// Record i of n.
    record: fn(&mut Rng, u32, u32) -> Record,
}

pub const SHAPES: [Shape; 10] = [
    Shape { name: "random", record: random },
    Shape { name: "sequential", record: sequential },
    Shape { name: "reverse", record: reverse },
    Shape { name: "tiny overwrites", record: tiny },
    Shape { name: "nested inward", record: inward },
    Shape { name: "nested outward", record: outward },
    Shape { name: "stairs up", record: stairs_up },
    Shape { name: "stairs down", record: stairs_down },
    Shape { name: "comb", record: comb },
    Shape { name: "sliding window", record: window },
];

impl Shape {
    /// So many lists of that shape, each of so many records.
    pub fn lists(&self, records: usize, lists: usize) -> Vec<Vec<u8>> {
        let mut rng = Rng::new(records as u64);
        (0..lists).map(|_| self.list(&mut rng, records as u32)).collect()
    }

    fn list(&self, rng: &mut Rng, n: u32) -> Vec<u8> {
        (0..n).flat_map(|i| (self.record)(rng, i, n).to_bytes()).collect()
    }
}

/// One write: zeros once in 16 times, else a part of a slice of its own.
fn part(rng: &mut Rng, i: u32, pos: u32, len: u32) -> Record {
    if rng.once_in(16) {
        return Record { pos, id: 0, size: 0, off: 0, len };
    }
    let off = rng.below(u64::from(CHUNK - len) / 4 + 1) as u32;
    Record { pos, id: 1_000_000 + u64::from(i), size: off + len, off, len }
}

/// One write of a whole slice.
fn whole(i: u32, pos: u32, len: u32) -> Record {
    Record { pos, id: 1_000_000 + u64::from(i), size: len, off: 0, len }
}

/// Anywhere, up to a quarter of the chunk.
fn random(rng: &mut Rng, i: u32, _: u32) -> Record {
    let pos = rng.below(u64::from(CHUNK)) as u32;
    let len = 1 + rng.below(u64::from(CHUNK) / 4) as u32;
    part(rng, i, pos, len.min(CHUNK - pos))
}

/// One behind the other.
fn sequential(_: &mut Rng, i: u32, n: u32) -> Record {
    let len = CHUNK / n;
    whole(i, i * len, len)
}

/// One in front of the other.
fn reverse(_: &mut Rng, i: u32, n: u32) -> Record {
    let len = CHUNK / n;
    whole(i, (n - 1 - i) * len, len)
}

/// The whole chunk, then up to 4 KiB at a time.
fn tiny(rng: &mut Rng, i: u32, _: u32) -> Record {
    if i == 0 {
        return whole(i, 0, CHUNK);
    }
    let pos = 4_096 * rng.below(u64::from(CHUNK) / 4_096) as u32;
    let len = 1 + rng.below(4_096) as u32;
    part(rng, i, pos, len)
}

/// Each inside the one before it.
fn inward(rng: &mut Rng, i: u32, n: u32) -> Record {
    let pos = i * (CHUNK / 2 / (n + 1));
    part(rng, i, pos, CHUNK - 2 * pos)
}

/// Each around the one before it, so that the last hides all.
fn outward(rng: &mut Rng, i: u32, n: u32) -> Record {
    let pos = (n - i) * (CHUNK / 2 / (n + 1));
    part(rng, i, pos, CHUNK - 2 * pos)
}

/// Each a step further than the one before it, and far longer than the step.
fn stairs_up(rng: &mut Rng, i: u32, n: u32) -> Record {
    let step = CHUNK / (2 * n + 1);
    part(rng, i, i * step, n * step)
}

/// Each a step in front of the one before it.
fn stairs_down(rng: &mut Rng, i: u32, n: u32) -> Record {
    let step = CHUNK / (2 * n + 1);
    part(rng, i, (n - 1 - i) * step, n * step)
}

/// Half of the records are long; over them lie teeth, each with a gap behind it.
fn comb(rng: &mut Rng, i: u32, n: u32) -> Record {
    let (half, step) = (n / 2, CHUNK / (n + 1));
    if i < half {
        let pos = step * rng.below(u64::from(half)) as u32;
        return part(rng, i, pos, half * step);
    }
    part(rng, i, 2 * (i - half) * step, step)
}

/// Anywhere, all nearly as long: some 4 MB.
fn window(rng: &mut Rng, i: u32, _: u32) -> Record {
    let pos = rng.below(u64::from(CHUNK) - 5_000_000) as u32;
    let len = 4_000_000 + rng.below(100_000) as u32;
    part(rng, i, pos, len)
}
