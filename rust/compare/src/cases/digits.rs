//! Numbers of every length, written into buffers that just fit and into ones that are a byte short.

use crate::call::{Call, Room};

pub fn all() -> Vec<Call> {
    let rooms = [Room::Right, Room::OneShort];
    numbers().into_iter().flat_map(|n| rooms.into_iter().flat_map(move |out| of(n, out))).collect()
}

/// Where the number of digits changes, all digits in turn, and the largest.
fn numbers() -> Vec<u64> {
    let powers = (0..20).map(|k| 10_u64.pow(k));
    let around = powers.flat_map(|power| [power - 1, power, power + 1]);
    around.chain([12_345_678_901_234_567_890, u64::MAX]).collect()
}

/// The number in each text that holds one of any length, and its last digits in each place.
fn of(n: u64, out: Room) -> [Call; 3] {
    let (volume, block, length) = (b"v".to_vec(), n % 1_024, 1 + n % 16_777_216);
    [
        Call::WriteObjectName { id: n, block, length, out },
        Call::WriteFullName { volume, id: n, block, length, out },
        Call::WriteRedisKey { inode: n, index: n % (1 << 32), out },
    ]
}

#[cfg(test)]
mod tests {
    use super::numbers;

    #[test]
    fn numbers_of_every_length() {
        let lengths: Vec<usize> = numbers().iter().map(|n| n.to_string().len()).collect();
        assert!((1..=20).all(|length| lengths.contains(&length)));
    }
}
