//! Time of a call, in seconds.

use std::hint::black_box;
use std::time::Instant;

/// Together the rounds take about a second at most, unless one call takes longer.
const ROUNDS: u32 = 3;
const ROUND_SECONDS: f64 = 0.15;

/// The best of a few rounds, each with as many calls as fit into it.
pub fn best_time<T>(mut call: impl FnMut() -> T) -> f64 {
    let start = Instant::now();
    black_box(call());
    let once = start.elapsed().as_secs_f64();
    let calls = (ROUND_SECONDS / once.max(1e-9)).clamp(1.0, 1e6) as u32;
    let rounds = if once > ROUND_SECONDS { 1 } else { ROUNDS };
    (0..rounds)
        .map(|_| {
            let start = Instant::now();
            for _ in 0..calls {
                black_box(call());
            }
            start.elapsed().as_secs_f64() / f64::from(calls)
        })
        .fold(f64::INFINITY, f64::min)
}
