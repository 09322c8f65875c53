//! `compare [calls] [seed]`: every call of the archive against the second program, each made
//! through the Rust crate and through C compiled from the header; and the header's constants.
//! `calls` is the number of random calls, which are made beside the chosen ones.
//!
//! Prints what was compared and how many differences were found; the exit status is 1 if
//! there was one. The same seed makes the same calls.

mod binding;
mod call;
mod cases;
mod combinations;
mod constants;
mod elsewhere;
mod expected;
mod files;
mod header;
mod history;
mod ids;
mod joined;
mod joining;
mod lent;
mod lists;
mod marks;
mod mended;
mod most;
mod mutate;
mod null;
mod numbers;
mod pair;
mod places;
mod random;
mod refused;
mod run;
mod tally;
mod texts;
mod views;

use std::process::exit;

use tally::Tally;

const CALLS: u64 = 100_000;
const SEED: u64 = 20_250_101;

fn main() {
    let mut arguments = std::env::args().skip(1);
    let calls = number(arguments.next(), CALLS);
    let seed = number(arguments.next(), SEED);
    println!("seed {seed}");
    let mut tally = Tally::default();
    constants::run(&mut tally);
    for call in cases::all() {
        tally.compare("papers and limits", &call);
    }
    combinations::run(&mut tally);
    null::run(&mut tally);
    random::run(&mut tally, seed, calls);
    combinations::reach(&mut tally);
    null::reach(&mut tally);
    if calls >= CALLS {
        random::reach(&mut tally);
    }
    print!("{tally}");
    exit(if tally.differences() == 0 { 0 } else { 1 });
}

fn number(argument: Option<String>, otherwise: u64) -> u64 {
    let Some(text) = argument else {
        return otherwise;
    };
    text.parse().unwrap_or_else(|_| {
        eprintln!("usage: compare [calls] [seed]");
        exit(2)
    })
}
