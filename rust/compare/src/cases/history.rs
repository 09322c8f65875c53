//! What is new since last time: pairs by the paper's words, each also in one memory where it can be.

use second::limits::{CHUNK, RECORD};

use super::{list, three, BLOCK};
use crate::call::Call;
use crate::pair::Pair;

type Row = (u64, u64, u64, u64, u64);

const A: Row = (0, 7, 20, 0, 20);
const B: Row = (4, 0, 0, 0, 8);
const C: Row = (30, 8, 9, 0, 9);

pub fn all() -> Vec<Call> {
    let pairs = [beginnings(), rewritten(), at_the_limit(), refused(), overlapping()].concat();
    pairs.into_iter().map(|pair| Call::Added { pair }).collect()
}

/// Every beginning of a list, in whole records and in half ones; and the other way round.
fn beginnings() -> Vec<Pair> {
    let whole = three();
    let both = |end: usize| {
        let (part, all) = (0..end, 0..whole.len());
        [
            Pair::apart(&whole[..end], &whole),
            Pair::apart(&whole, &whole[..end]),
            Pair::within(&whole, part.clone(), all.clone()),
            Pair::within(&whole, all, part),
        ]
    };
    (0..=whole.len()).flat_map(both).collect()
}

/// Other records, another order, a byte changed, another size of zeros, a compacted list.
fn rewritten() -> Vec<Pair> {
    let older = list(&[A, B]);
    let rows: [&[Row]; 7] =
        [&[], &[B, A], &[A, C, B], &[C, A, B], &[A, (4, 0, 8, 0, 8)], &[A, A, B], &[A, B, C]];
    let mut pairs: Vec<Pair> = rows.iter().map(|rows| Pair::apart(&older, &list(rows))).collect();
    for at in 0..older.len() {
        let mut newer = list(&[A, B, C]);
        newer[at] ^= 1;
        pairs.push(Pair::apart(&older, &newer));
    }
    for k in 0..=3 {
        let (_, newer) = second::compact_bytes(&three(), 0, BLOCK, k, 99).expect("a plan");
        pairs.push(Pair::apart(&three(), &newer));
    }
    pairs
}

fn at_the_limit() -> Vec<Pair> {
    let bytes = vec![0; 2_049 * RECORD];
    let ends = [0, 1, 2_047, 2_048, 2_049].map(|records| records * RECORD);
    let pairs = ends.into_iter().flat_map(|older| ends.map(|newer| (older, newer)));
    pairs.map(|(older, newer)| Pair::apart(&bytes[..older], &bytes[..newer])).collect()
}

/// One list for each refusal, and each of them with each, also as a beginning of both.
fn refused() -> Vec<Pair> {
    let bad = [
        vec![0; 23],
        vec![0; 2_049 * RECORD],
        list(&[A, (CHUNK, 7, 20, 0, 1)]),
        list(&[A, B, (0, 9, CHUNK + 1, 0, 1)]),
        list(&[(4, 0, 1, 0, 8)]),
        list(&[A, A, A, (0, 7, 20, 4, 17)]),
        list(&[A, C, (0, 7, 21, 0, 20)]),
        list(&[A, B, C]),
    ];
    let pairs = bad.iter().flat_map(|older| bad.iter().map(move |newer| (older, newer)));
    let mut pairs: Vec<Pair> = pairs.map(|(older, newer)| Pair::apart(older, newer)).collect();
    let joined = |older: &Vec<u8>, rest: &Vec<u8>| [&older[..], rest].concat();
    for older in &bad {
        pairs.extend(bad.iter().map(|rest| Pair::apart(older, &joined(older, rest))));
    }
    pairs
}

/// Any two parts of one memory, in whole records.
fn overlapping() -> Vec<Pair> {
    let memory = list(&[A, B, A, B, C]);
    let places = || (0..=5).flat_map(|start| (start..=5).map(move |end| (start, end)));
    let part = |(start, end)| start * RECORD..end * RECORD;
    let pairs = places().flat_map(|older| places().map(move |newer| (older, newer)));
    pairs.map(|(older, newer)| Pair::within(&memory, part(older), part(newer))).collect()
}
