//! Names and Redis keys written, with ids and inodes of several lengths.

use rng::Rng;

use crate::library::{BEFORE, NOW};
use crate::measure::{program, Program};
use crate::timed::{Row, Who, BLOCK, WRITTEN};
use crate::yard::{texts, written};

/// How many digits the ids have.
pub const DIGITS: [usize; 4] = [1, 6, 12, 20];
const TEXTS: usize = 2_000;

/// What a text is made of. All of it is an input, so that no program is compiled for a volume or a
/// block length that is known beforehand.
struct Parts {
    volume: &'static [u8],
    id: u64,
    block: u64,
    length: u64,
}

/// Writes a text into the buffer: how long it is.
type Write = fn(&Parts, &mut [u8]) -> Option<usize>;

const KEYS: [(Who, Write); 4] = [
    (Who::Now, |p, out| NOW.write_redis(p.id, p.block, out)),
    (Who::Before, |p, out| BEFORE?.write_redis(p.id, p.block, out)),
    (Who::Best, |p, out| texts::write_redis(p.id, p.block, out)),
    (Who::Write, |p, out| written::write_redis(p.id, p.block, out)),
];
const SHORT_NAMES: [(Who, Write); 4] = [
    (Who::Now, |p, out| NOW.write_short(p.id, p.block, p.length, out)),
    (Who::Before, |p, out| BEFORE?.write_short(p.id, p.block, p.length, out)),
    (Who::Best, |p, out| texts::write_short(p.id, p.block, p.length, out)),
    (Who::Write, |p, out| written::write_short(p.id, p.block, p.length, out)),
];
const FULL_NAMES: [(Who, Write); 4] = [
    (Who::Now, |p, out| NOW.write_name(p.volume, p.id, p.block, p.length, out)),
    (Who::Before, |p, out| BEFORE?.write_name(p.volume, p.id, p.block, p.length, out)),
    (Who::Best, |p, out| texts::write_name(p.volume, p.id, p.block, p.length, out)),
    (Who::Write, |p, out| written::write_name(p.volume, p.id, p.block, p.length, out)),
];

pub fn rows() -> Result<Vec<Row>, String> {
    let mut rows = Vec::new();
    for (call, writers) in WRITTEN.into_iter().zip([KEYS, SHORT_NAMES, FULL_NAMES]) {
        for digits in DIGITS {
            rows.push(row(call, digits, &writers)?);
        }
    }
    Ok(rows)
}

fn row(call: &'static str, digits: usize, writers: &[(Who, Write)]) -> Result<Row, String> {
    let linked = |who| who != Who::Before || BEFORE.is_some();
    let writers: Vec<_> = writers.iter().copied().filter(|(who, _)| linked(*who)).collect();
    let texts = texts(digits);
    for parts in &texts {
        same(parts, &writers).map_err(|what| format!("{call}, {}: {what}", parts.id))?;
    }
    let timed = |(who, write): (Who, Write)| -> (Who, Program<Parts>) {
        let mut out = [0; 128];
        (who, program(move |parts| write(parts, &mut out)))
    };
    let programs = writers.into_iter().map(timed).collect();
    Ok(Row::timed((call, "digits", digits), &texts, programs))
}

/// With ids of exactly so many digits.
fn texts(digits: usize) -> Vec<Parts> {
    let mut rng = Rng::new(digits as u64);
    let least = 10_u64.pow(digits as u32 - 1);
    let most = least.checked_mul(10).map_or(u64::MAX, |more| more - 1);
    let parts = |id| Parts { volume: b"volume-7", id, block: id % 1_024, length: BLOCK.into() };
    (0..TEXTS).map(|_| parts(least + rng.below(most - least + 1))).collect()
}

fn same(parts: &Parts, writers: &[(Who, Write)]) -> Result<(), String> {
    let mut first = None;
    for (who, write) in writers {
        let mut out = [0; 128];
        let count = write(parts, &mut out);
        if count.is_none() || *first.get_or_insert((count, out)) != (count, out) {
            return Err(format!("{who:?} differs"));
        }
    }
    Ok(())
}
