//! Times of several programs for one call on lists of one shape.

use crate::measure::{median, times, Program};

/// A program.
#[derive(Clone, Copy, Debug, PartialEq, Eq)]
pub enum Who {
    /// The archive.
    Now,
    /// The archive, into a buffer that just fits.
    Fits,
    /// Another archive, built before.
    Before,
    /// The best plain Rust.
    Best,
    /// The plain sweep.
    Plain,
    /// The cut tree.
    Tree,
    /// The quadratic walk; in seeking, a walk from the front.
    Walk,
    /// The check of refusals 1 to 6 alone.
    Six,
    /// The checks of the same lists alone.
    Checks,
    /// The plan of the whole read.
    Plan,
    /// The archive, on the same pieces in order.
    InOrder,
    /// Calls on single chunks, one after the other, in the stead of one on a file.
    Singles,
    /// Rust's own formatting.
    Write,
}

pub struct Row {
    pub call: &'static str,
    pub shape: &'static str,
    pub records: usize,
    /// In each of the rounds.
    times: Vec<(Who, Vec<f64>)>,
}

impl Row {
    /// Times all programs on the same inputs.
    pub fn timed<T>(
        (call, shape, records): (&'static str, &'static str, usize),
        inputs: &[T],
        programs: Vec<(Who, Program<T>)>,
    ) -> Row {
        let (whos, mut programs): (Vec<Who>, Vec<Program<T>>) = programs.into_iter().unzip();
        let times = whos.into_iter().zip(times(inputs, &mut programs)).collect();
        Row { call, shape, records, times }
    }

    fn rounds(&self, who: Who) -> Option<&Vec<f64>> {
        self.times.iter().find(|(one, _)| *one == who).map(|(_, times)| times)
    }

    /// Microseconds for one input.
    pub fn time(&self, who: Who) -> Option<f64> {
        Some(median(self.rounds(who)?.clone()))
    }

    /// The median of the rounds' ratios: what slows a whole round is no part of it. Programs that
    /// took part in different rounds are set beside each other by their medians.
    pub fn ratio(&self, who: Who, other: Who) -> Option<f64> {
        let (ones, others) = (self.rounds(who)?, self.rounds(other)?);
        if ones.len() != others.len() {
            return Some(self.time(who)? / self.time(other)?);
        }
        Some(median(ones.iter().zip(others).map(|(one, other)| one / other).collect()))
    }
}
