//! Times. The contenders of a row take turns, so that a busy neighbour hits all alike, and each keeps its best turn.

use std::time::{Duration, Instant};

/// How long the contenders of a row take turns, and how many turns each has at least.
const SPAN: Duration = Duration::from_secs(4);
const FEWEST_TURNS: usize = 15;

/// A contender's turn: it says how many nanoseconds one call took.
pub type Turn<'a> = &'a mut dyn FnMut() -> f64;

/// The nanoseconds that one call takes, of so many one after another.
pub fn per_call(calls: usize, mut call: impl FnMut()) -> f64 {
    let start = Instant::now();
    for _ in 0..calls {
        call();
    }
    start.elapsed().as_nanos() as f64 / calls as f64
}

/// Each contender's best turn.
pub fn best_turns<const N: usize>(mut contenders: [Turn; N]) -> [f64; N] {
    let mut best = [f64::MAX; N];
    let start = Instant::now();
    let mut turns = 0;
    while turns < FEWEST_TURNS || start.elapsed() < SPAN {
        for (best, turn) in best.iter_mut().zip(&mut contenders) {
            *best = best.min(turn());
        }
        turns += 1;
    }
    best
}
