//! Lists of many slices, which the check of sizes has to tell apart.

use second::Record;

use rng::Rng;

/// How far one id is from the next: ids that differ in their low bits, or in their high ones only.
const STEPS: [u32; 9] = [0, 1, 2, 12, 13, 20, 32, 40, 52];

/// Slices in rising, falling or any order, some of them named several times; in some lists one of
/// them in another size.
pub fn many_slices(rng: &mut Rng, count: u64) -> Vec<Record> {
    let (first, step, order) = (rng.u64(), rng.pick(&STEPS), rng.below(3));
    let mut records: Vec<Record> = (0..count)
        .map(|i| {
            let turn = [i, count - i, rng.below(2 * count)][order as usize];
            slice(rng, first.wrapping_add(turn << step))
        })
        .collect();
    if count > 0 && rng.once_in(3) {
        let (from, to) = (rng.below(count) as usize, rng.below(count) as usize);
        records[to] = Record { size: records[from].size + 1, ..records[from] };
    }
    records
}

/// A part of the slice, whose size its id decides.
fn slice(rng: &mut Rng, id: u64) -> Record {
    let (pos, len) = (rng.below(1_000), rng.below(20));
    if id == 0 {
        return Record::new(pos, 0, 0, 0, len);
    }
    let size = 20 + id.wrapping_mul(0x9e37_79b9_7f4a_7c15) % 50;
    Record::new(pos, id, size, rng.below(size - len + 1), len)
}
