//! Names and keys, each written and read back.

use ezumokarin as archive;
use rng::Rng;

use crate::measure::{program, Program};
use crate::timed::{Row, Who, KEYS, NAMES};
use crate::yard::texts;

const VOLUME: &[u8] = b"volume-7";
const TEXTS: usize = 2_000;

/// Writes texts of a number into the buffer, and reads them: their length, and what came back.
type Texts = fn(u64, &mut [u8; 128]) -> Option<(usize, u64, u64)>;

pub fn rows() -> Result<Vec<Row>, String> {
    Ok(vec![
        row(NAMES, names_by_archive, names_by_rust)?,
        row(KEYS, keys_by_archive, keys_by_rust)?,
    ])
}

/// Numbers of 1 to 19 digits.
fn ids() -> Vec<u64> {
    let mut rng = Rng::new(1);
    (0..TEXTS).map(|i| 1 + (rng.u64() >> (1 + i % 63))).collect()
}

fn row(call: &'static str, by_archive: Texts, by_rust: Texts) -> Result<Row, String> {
    let ids = ids();
    for id in &ids {
        let (mut one, mut other) = ([0; 128], [0; 128]);
        let answer = by_archive(*id, &mut one);
        if answer.is_none() || answer != by_rust(*id, &mut other) || one != other {
            return Err(format!("{call}, {id}: the programs differ"));
        }
    }
    let timed = |texts: Texts| -> Program<u64> {
        let mut out = [0; 128];
        program(move |id| texts(*id, &mut out))
    };
    let programs = vec![(Who::Now, timed(by_archive)), (Who::Best, timed(by_rust))];
    Ok(Row::timed((call, "written and read back", 1), &ids, programs))
}

fn names_by_archive(id: u64, out: &mut [u8; 128]) -> Option<(usize, u64, u64)> {
    let count = archive::write_full_name(VOLUME, id, id % 1_024, 4_194_304, out).ok()?;
    let name = archive::read_full_name(&out[..count]).ok()?;
    Some((count, name.volume.len() as u64, name.object.id))
}

fn names_by_rust(id: u64, out: &mut [u8; 128]) -> Option<(usize, u64, u64)> {
    let count = texts::write_name(VOLUME, id, id % 1_024, 4_194_304, out)?;
    let (volume, id, _, _) = texts::read_name(&out[..count])?;
    Some((count, volume as u64, id))
}

fn keys_by_archive(id: u64, out: &mut [u8; 128]) -> Option<(usize, u64, u64)> {
    let count = archive::write_redis_key(id, id % 1_024, out).ok()?;
    let redis = archive::read_redis_key(&out[..count]).ok()?;
    archive::write_tkv_key(id, id % 1_024, &mut out[64..]).ok()?;
    let tkv = archive::read_tkv_key(&out[64..78]).ok()?;
    Some((count, redis.inode, tkv.inode))
}

fn keys_by_rust(id: u64, out: &mut [u8; 128]) -> Option<(usize, u64, u64)> {
    let count = texts::write_redis(id, id % 1_024, out)?;
    let (redis, _) = texts::read_redis(&out[..count])?;
    texts::write_tkv(id, id % 1_024, &mut out[64..])?;
    let (tkv, _) = texts::read_tkv(&out[64..78])?;
    Some((count, redis, tkv))
}
