//! The time of a call.

use std::hint::black_box;
use std::time::Instant;

use bench::{median, medians};

use crate::rows::Row;
use crate::sides::Side;

const ROUNDS: usize = 7;
const SAMPLES: usize = 101;
const NANOSECONDS_A_SAMPLE: f64 = 100_000.0;

/// Nanoseconds a call, over so many calls.
#[inline(never)]
fn sample(row: &mut impl Row, side: impl Side, calls: u32) -> f64 {
    let start = Instant::now();
    for _ in 0..calls {
        row.run(side);
    }
    start.elapsed().as_nanos() as f64 / f64::from(calls)
}

/// How many calls a sample has.
fn calls(row: &mut impl Row, side: impl Side) -> u32 {
    let once = median((0..9).map(|_| sample(row, side, 100)).collect());
    (NANOSECONDS_A_SAMPLE / once.max(0.5)) as u32 + 1
}

/// Nanoseconds a call of each side and their ratio, medians over the rounds.
pub fn times<R: Row>(mut row: R, first: impl Side, second: impl Side) -> [f64; 3] {
    let calls = [calls(&mut row, first), calls(&mut row, second)];
    let mut rounds = Vec::new();
    round(&mut rounds, &row, first, second, calls);
    medians(&rounds)
}

/// A round, in which the sides take turns and each has the median of its samples, and then the rounds after it. Where a row
/// lies changes the time of a short call, so each round has its row, and its calls, deeper in the stack.
#[inline(never)]
fn round<R: Row>(
    rounds: &mut Vec<(f64, f64)>,
    row: &R,
    first: impl Side,
    second: impl Side,
    calls: [u32; 2],
) {
    let depth = black_box([0_u8; 592]);
    let mut here = row.clone();
    let (firsts, seconds) = (0..SAMPLES)
        .map(|_| (sample(&mut here, first, calls[0]), sample(&mut here, second, calls[1])))
        .unzip();
    rounds.push((median(firsts), median(seconds)));
    if rounds.len() < ROUNDS {
        round(rounds, row, first, second, calls);
    }
    black_box(&depth);
}
