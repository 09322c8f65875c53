//! Times of programs that take turns.

use std::hint::black_box;
use std::time::Duration;

use crate::clock::now;

/// Many short turns, so that what disturbs some of them is no part of the median.
const ROUNDS: u32 = 201;
/// A program runs about this long in each round.
const TURN: Duration = Duration::from_micros(250);
/// A program that takes longer than this for all inputs takes one of them in each round.
const LONG: Duration = Duration::from_millis(2);
/// One that takes longer than this for one input does so in few of the rounds.
const VERY_LONG: Duration = Duration::from_millis(4);
const FEW_ROUNDS: u32 = 7;

/// Takes each of the inputs so many times.
pub type Program<'a, T> = Box<dyn FnMut(&[T], u32) + 'a>;

/// A program from what it does with one input.
pub fn program<'a, T, A>(mut call: impl FnMut(&T) -> A + 'a) -> Program<'a, T> {
    Box::new(move |inputs, times| {
        for _ in 0..times {
            for input in inputs {
                black_box(call(black_box(input)));
            }
        }
    })
}

/// What each program takes for one input, in microseconds, in each of its rounds.
pub fn times<T>(inputs: &[T], programs: &mut [Program<T>]) -> Vec<Vec<f64>> {
    let turns: Vec<Turn> = programs.iter_mut().map(|program| turn(inputs, program)).collect();
    let mut times = vec![Vec::new(); programs.len()];
    for round in 0..ROUNDS {
        for ((program, turn), times) in programs.iter_mut().zip(&turns).zip(&mut times) {
            times.extend(turn.time(round, inputs, program));
        }
    }
    times
}

/// How a program's turn goes.
enum Turn {
    /// All inputs, so many times.
    All(u32),
    /// One input, another one each time, once in so many rounds.
    One(u32),
}

impl Turn {
    fn time<T>(&self, round: u32, inputs: &[T], program: &mut Program<T>) -> Option<f64> {
        match *self {
            Turn::All(times) => Some(micros(time(inputs, times, program), inputs.len(), times)),
            Turn::One(rounds) if !round.is_multiple_of(rounds) => None,
            Turn::One(rounds) => {
                let at = (round / rounds) as usize % inputs.len();
                Some(micros(time(&inputs[at..=at], 1, program), 1, 1))
            }
        }
    }
}

fn turn<T>(inputs: &[T], program: &mut Program<T>) -> Turn {
    if time(&inputs[..1], 1, program) >= VERY_LONG {
        return Turn::One(ROUNDS / FEW_ROUNDS);
    }
    if time(inputs, 1, program) >= LONG {
        return Turn::One(1);
    }
    let mut times = 1;
    while time(inputs, times, program) < TURN / 2 && times < 1 << 24 {
        times *= 2;
    }
    Turn::All(times)
}

fn time<T>(inputs: &[T], times: u32, program: &mut Program<T>) -> Duration {
    let start = now();
    program(inputs, times);
    now() - start
}

fn micros(taken: Duration, inputs: usize, times: u32) -> f64 {
    taken.as_secs_f64() * 1e6 / inputs as f64 / f64::from(times)
}

pub fn median(mut times: Vec<f64>) -> f64 {
    times.sort_by(f64::total_cmp);
    times[times.len() / 2]
}
