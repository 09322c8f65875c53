//! Names and keys.

use rng::Rng;

use crate::yard::{texts, written};

fn text(write: &dyn Fn(&mut [u8]) -> Option<usize>) -> Vec<u8> {
    let mut out = vec![0; 128];
    let count = write(&mut out).expect("a text");
    out.truncate(count);
    out
}

/// Of every length, at random and at the powers of ten.
fn ids() -> Vec<u64> {
    let mut rng = Rng::new(3);
    let mut ids = vec![u64::MAX];
    for digits in 0..20 {
        let power = 10_u64.pow(digits);
        let most = power.checked_mul(10).map_or(u64::MAX, |more| more - 1);
        ids.extend([power - 1, power, power + 1]);
        ids.extend((0..50).map(|_| power + rng.below(most - power + 1)));
    }
    ids.retain(|id| *id > 0);
    ids
}

#[test]
fn names_and_keys_are_those_of_the_second_program() {
    let mut rng = Rng::new(3);
    for id in ids() {
        let (block, length) = (rng.below(1_024), 1 + rng.below(16_777_216));
        let index = rng.below(1 << 32) >> rng.below(32);
        let short = second::object_name(id, block, length).expect("a name");
        assert_eq!(text(&|out| texts::write_short(id, block, length, out)), short);
        assert_eq!(text(&|out| written::write_short(id, block, length, out)), short);
        let name = second::full_name(b"v", id, block, length).expect("a name");
        assert_eq!(text(&|out| texts::write_name(b"v", id, block, length, out)), name);
        assert_eq!(text(&|out| written::write_name(b"v", id, block, length, out)), name);
        assert_eq!(texts::read_name(&name), Some((1, id, block, length)));
        let redis = second::redis_key(id, index).expect("a key");
        assert_eq!(text(&|out| texts::write_redis(id, index, out)), redis);
        assert_eq!(text(&|out| written::write_redis(id, index, out)), redis);
        assert_eq!(texts::read_redis(&redis), Some((id, index)));
        let tkv = second::tkv_key(id, index).expect("a key");
        assert_eq!(text(&|out| texts::write_tkv(id, index, out)), tkv);
        assert_eq!(texts::read_tkv(&tkv), Some((id, index)));
    }
}

#[test]
fn names_and_keys_are_refused_as_by_the_second_program() {
    let out = &mut [0; 128][..];
    let long = [b'v'; 64];
    let volumes = [&long[..0], b"v", &long[..63], &long, b"V", b"v_"];
    for (id, block, length) in
        [(0, 0, 1), (1, 1_023, 16_777_216), (1, 1_024, 1), (1, 0, 0), (1, 0, 16_777_217)]
    {
        let short = second::object_name(id, block, length).ok().map(|name| name.len());
        assert_eq!(texts::write_short(id, block, length, out), short);
        assert_eq!(written::write_short(id, block, length, out), short);
        for volume in volumes {
            let name = second::full_name(volume, id, block, length).ok().map(|name| name.len());
            assert_eq!(texts::write_name(volume, id, block, length, out), name);
            assert_eq!(written::write_name(volume, id, block, length, out), name);
        }
    }
    for index in [u64::from(u32::MAX), 1 << 32] {
        let key = second::redis_key(0, index).ok().map(|key| key.len());
        assert_eq!(texts::write_redis(0, index, out), key);
        assert_eq!(written::write_redis(0, index, out), key);
    }
}

#[test]
fn texts_need_room_for_all_of_them() {
    for id in ids() {
        let name = second::full_name(b"v", id, 7, 8).expect("a name");
        for write in [texts::write_name, written::write_name] {
            let mut out = vec![0; name.len()];
            assert_eq!(write(b"v", id, 7, 8, &mut out), Some(name.len()));
            assert_eq!(out, name);
            assert_eq!(write(b"v", id, 7, 8, &mut out[1..]), None);
        }
    }
}
