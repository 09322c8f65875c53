//! Maximal runs, made by cutting at every boundary and joining what goes on.

use crate::{source_at, Record, Source};

/// A value that says what stands some bytes later if its run goes on.
pub trait Step: Copy + PartialEq {
    fn after(self, bytes: u64) -> Self;
}

#[derive(Clone, Copy, Debug, PartialEq, Eq)]
pub struct Run<T> {
    pub start: u64,
    pub len: u64,
    pub first: T,
}

/// Divides the positions from `from` up to `to` at every boundary of a record.
/// Inside a part the same records cover all positions.
pub fn parts(records: &[Record], from: u64, to: u64) -> Vec<Run<Source>> {
    let edges = records.iter().flat_map(|record| [record.pos, record.end()]);
    divided(edges, from, to)
        .map(|(start, len)| Run { start, len, first: source_at(records, start) })
        .collect()
}

/// The starts and lengths that these edges, in any order, make of `from` up to `to`.
pub fn divided(
    edges: impl Iterator<Item = u64>,
    from: u64,
    to: u64,
) -> impl Iterator<Item = (u64, u64)> {
    let mut cuts: Vec<u64> = edges.map(|edge| edge.clamp(from, to)).collect();
    cuts.extend([from, to]);
    cuts.sort_unstable();
    cuts.dedup();
    let starts = cuts.clone();
    starts.into_iter().zip(cuts.into_iter().skip(1)).map(|(start, end)| (start, end - start))
}

/// Joins neighbours where the later one is what the earlier one goes on with.
pub fn join<T: Step>(parts: Vec<Run<T>>) -> Vec<Run<T>> {
    let mut runs: Vec<Run<T>> = Vec::new();
    for part in parts {
        match runs.last_mut() {
            Some(run) if run.first.after(run.len) == part.first => run.len += part.len,
            _ => runs.push(part),
        }
    }
    runs
}
