//! Times of calls that take turns.

use std::hint::black_box;
use std::time::{Duration, Instant};

/// The least time of one call of each, in microseconds. The calls take turns, so that what else the
/// machine does falls on all of them.
pub fn microseconds<const N: usize>(mut calls: [&mut dyn FnMut(); N]) -> [f64; N] {
    let slice = Duration::from_millis(4);
    let mut repeats = [1; N];
    let mut rounds = [25; N];
    let mut least = [0.0; N];
    for (k, call) in calls.iter_mut().enumerate() {
        let start = Instant::now();
        call();
        let first = start.elapsed();
        least[k] = first.as_secs_f64() * 1e6;
        repeats[k] = (slice.as_nanos() / first.as_nanos().max(1)).clamp(1, 1 << 20);
        if first > Duration::from_millis(100) {
            rounds[k] = if first > Duration::from_secs(1) { 0 } else { 3 };
        }
    }
    for round in 0..25 {
        for (k, call) in calls.iter_mut().enumerate().filter(|(k, _)| round < rounds[*k]) {
            let start = Instant::now();
            for _ in 0..repeats[k] {
                call();
            }
            least[k] = f64::min(least[k], start.elapsed().as_secs_f64() * 1e6 / repeats[k] as f64);
        }
    }
    least
}

/// The median and the most of the times in each column.
pub fn median_and_most<const N: usize>(times: &[[f64; N]]) -> [[f64; N]; 2] {
    let sorted: [Vec<f64>; N] = std::array::from_fn(|k| {
        let mut column: Vec<f64> = times.iter().map(|row| row[k]).collect();
        column.sort_by(f64::total_cmp);
        column
    });
    [times.len() / 2, times.len() - 1].map(|at| std::array::from_fn(|k| sorted[k][at]))
}

/// Keeps the processor busy for a second, so that the first times are taken at the speed of the rest.
pub fn warm_up() {
    let start = Instant::now();
    let mut turns = 0u64;
    while start.elapsed() < Duration::from_secs(1) {
        turns = black_box(turns + 1);
    }
}
