//! Names and keys to be written: wrong numbers and short buffers in every combination.

use crate::call::{Call, Room};
use crate::tally::Tally;

use super::expect;

pub fn run(tally: &mut Tally) {
    for id in [0, 1] {
        for block in [0, 1_023, 1_024, 1 << 32] {
            for length in [0, 1, 16_777_216, 16_777_217, (1 << 32) + 1] {
                let allowed = id > 0 && block <= 1_023 && (1..=16_777_216).contains(&length);
                names(tally, (id, block, length), allowed);
            }
        }
    }
    for index in [0, 4_294_967_295, 4_294_967_296, u64::MAX] {
        keys(tally, index, index <= 4_294_967_295);
    }
}

/// Refusal 13 comes before 12.
fn refusal(allowed: bool, room: Room) -> u64 {
    match (allowed, room) {
        (false, _) => 13,
        (true, Room::Right | Room::Longer(_)) => 0,
        (true, _) => 12,
    }
}

const ROOMS: [Room; 4] = [Room::Right, Room::OneShort, Room::Empty, Room::Longer(9)];

fn names(tally: &mut Tally, (id, block, length): (u64, u64, u64), allowed: bool) {
    for out in ROOMS {
        let call = Call::WriteObjectName { id, block, length, out };
        expect(tally, &call, refusal(allowed, out));
        for (volume, good) in volumes() {
            let call = Call::WriteFullName { volume, id, block, length, out };
            expect(tally, &call, refusal(allowed && good, out));
        }
    }
}

fn volumes() -> Vec<(Vec<u8>, bool)> {
    vec![
        (b"a".to_vec(), true),
        (b"-0z9-".to_vec(), true),
        (vec![b'z'; 63], true),
        (vec![b'z'; 64], false),
        (Vec::new(), false),
        (b"A".to_vec(), false),
        (b"a/".to_vec(), false),
    ]
}

fn keys(tally: &mut Tally, index: u64, allowed: bool) {
    for inode in [0, 9, u64::MAX] {
        for out in ROOMS {
            expect(tally, &Call::WriteRedisKey { inode, index, out }, refusal(allowed, out));
            expect(tally, &Call::WriteTkvKey { inode, index, out }, refusal(allowed, out));
        }
    }
}
