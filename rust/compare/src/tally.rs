//! Counts of what was compared, per origin, call and refusal, and the differences.

use std::collections::{BTreeMap, BTreeSet};
use std::fmt;

use crate::binding::BINDINGS;
use crate::call::Call;
use crate::run;

/// The refusals' numbers; 0 is an answer.
const NUMBERS: [usize; 15] = [1, 2, 3, 4, 5, 6, 7, 8, 9, 10, 11, 12, 13, 16, 21];
/// Above every number.
const REFUSALS: usize = 22;
/// Differences that are printed in full; the rest are only counted.
const SHOWN: u64 = 10;

#[derive(Default)]
pub struct Tally {
    /// By origin or another mark, and there by call.
    origins: BTreeMap<&'static str, BTreeMap<&'static str, [u64; REFUSALS]>>,
    compared: u64,
    differences: u64,
}

impl Tally {
    /// Makes the call through every binding; returns the refusal that the second program gives.
    pub fn compare(&mut self, origin: &'static str, call: &Call) -> u64 {
        let shift = self.compared as usize;
        let mut refusal = 0;
        for binding in &BINDINGS {
            let seen = run::run(binding, call, shift);
            refusal = seen.refusal;
            if !seen.faults.is_empty() {
                let faults = seen.faults.join("\n  ");
                self.difference(&format!("{} {call:x?}", binding.name), &faults);
            }
        }
        self.count(origin, call.name(), refusal);
        refusal
    }

    pub fn count(&mut self, origin: &'static str, call: &'static str, refusal: u64) {
        self.compared += 1;
        self.mark(origin, call, refusal);
    }

    /// Counts a call that was compared already in one more table.
    pub fn mark(&mut self, table: &'static str, call: &'static str, refusal: u64) {
        let calls = self.origins.entry(table).or_default();
        calls.entry(call).or_default()[refusal as usize] += 1;
    }

    pub fn counted(&self, table: &str, call: &str, refusal: usize) -> u64 {
        let counts = self.origins.get(table).and_then(|calls| calls.get(call));
        counts.map_or(0, |counts| counts[refusal])
    }

    /// What calls of other origins met and none of this one did: the call, and its refusal or 0.
    pub fn missed(&self, origin: &str) -> Vec<(&'static str, usize)> {
        let met = |(call, counts): (&&'static str, &[u64; REFUSALS])| {
            let (call, counts) = (*call, *counts);
            (0..REFUSALS)
                .filter(move |number| counts[*number] > 0)
                .map(move |number| (call, number))
        };
        let here = self.origins.get(origin).into_iter().flatten();
        let here: BTreeSet<_> = here.flat_map(met).collect();
        let all: BTreeSet<_> = self.origins.values().flatten().flat_map(met).collect();
        all.difference(&here).copied().collect()
    }

    /// The calls that were compared elsewhere and never under this origin.
    pub fn left_out(&self, origin: &str) -> BTreeSet<&'static str> {
        let here = |call: &&str| self.origins.get(origin).is_some_and(|of| of.contains_key(call));
        self.origins.values().flat_map(BTreeMap::keys).copied().filter(|call| !here(call)).collect()
    }

    pub fn difference(&mut self, call: &str, what: &str) {
        self.differences += 1;
        if self.differences <= SHOWN {
            println!("DIFFERENCE in {call}\n  {what}");
        }
    }

    pub fn differences(&self) -> u64 {
        self.differences
    }
}

impl fmt::Display for Tally {
    fn fmt(&self, f: &mut fmt::Formatter<'_>) -> fmt::Result {
        for (origin, calls) in &self.origins {
            write!(f, "{origin:28}{:>8}", "answered")?;
            for number in NUMBERS {
                write!(f, "{number:>9}")?;
            }
            writeln!(f)?;
            for (name, counts) in calls {
                write!(f, "  {name:24}{:>10}", counts[0])?;
                for number in NUMBERS {
                    write!(f, "{:>9}", counts[number])?;
                }
                writeln!(f)?;
            }
        }
        let bindings: Vec<&str> = BINDINGS.iter().map(|binding| binding.name).collect();
        writeln!(f, "each made through: {}", bindings.join(", "))?;
        writeln!(f, "{} calls compared, {} differences", self.compared, self.differences)
    }
}
