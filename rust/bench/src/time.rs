//! Times: of several ways to do one task, the median of many runs each. They take turns, so that a
//! slower or faster spell of the machine meets all alike.

use std::time::{Duration, Instant};

/// How often each way runs.
const ROUNDS: usize = 101;

/// The median time of each way, in microseconds.
pub fn medians(ways: &mut [impl FnMut()]) -> Vec<f64> {
    let mut times = vec![vec![]; ways.len()];
    for _ in 0..ROUNDS {
        for (way, times) in ways.iter_mut().zip(&mut times) {
            let start = Instant::now();
            way();
            times.push(start.elapsed());
        }
    }
    let median = |times: &mut Vec<Duration>| {
        times.sort();
        times[ROUNDS / 2].as_secs_f64() * 1e6
    };
    times.iter_mut().map(median).collect()
}
