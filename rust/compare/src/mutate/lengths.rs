//! Changes of the lengths of lists: some keep their sum, some only if it wraps.

use rng::Rng;

/// Changes the lengths in one way.
pub fn list(rng: &mut Rng, lengths: &mut Vec<u64>) {
    let count = lengths.len() as u64;
    if count == 0 {
        lengths.push(rng.below(2));
        return;
    }
    let (a, b) = (rng.below(count) as usize, rng.below(count) as usize);
    match rng.below(9) {
        0 => lengths[a] += 1,
        1 => lengths[a] = lengths[a].saturating_sub(1),
        2 => lengths.swap(a, b),
        3 => lengths.push(0),
        4 => drop(lengths.pop()),
        5 => moved(lengths, a, b, rng.pick(&[1, 24])),
        6 => lengths.iter_mut().for_each(|length| *length = length.wrapping_add(1 << 60)),
        7 => lengths[a] = lengths[a].wrapping_add(1 << (32 + rng.below(32))),
        _ => moved(lengths, a, b, 1 << 63),
    }
}

/// Some bytes of a list become the other's; with too few of them one length wraps.
fn moved(lengths: &mut [u64], from: usize, to: usize, bytes: u64) {
    lengths[from] = lengths[from].wrapping_sub(bytes);
    lengths[to] = lengths[to].wrapping_add(bytes);
}
