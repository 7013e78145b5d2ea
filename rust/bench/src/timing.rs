//! Times of calls, in batches taken in turns.

use std::hint::black_box;
use std::time::{Duration, Instant};

/// Median nanoseconds a call of each, from so many batches of so many calls.
pub fn medians<const N: usize>(
    batches: usize,
    calls: u32,
    runs: [&mut dyn FnMut(); N],
) -> [f64; N] {
    medians_of(batches, runs.map(|run| (calls, run)))
}

/// The same, with numbers of calls of their own.
pub fn medians_of<const N: usize>(
    batches: usize,
    mut runs: [(u32, &mut dyn FnMut()); N],
) -> [f64; N] {
    let mut times = [(); N].map(|()| Vec::with_capacity(batches));
    for _ in 0..batches {
        for (times, (calls, run)) in times.iter_mut().zip(&mut runs) {
            times.push(time_batch(*calls, *run));
        }
    }
    times.map(median)
}

/// So many calls that a batch takes about that long.
pub fn calls_in(time: Duration, run: &mut dyn FnMut()) -> u32 {
    run();
    let start = Instant::now();
    run();
    let once = start.elapsed().as_nanos().max(1);
    u32::try_from(time.as_nanos() / once).map_or(1, |calls| calls.clamp(1, 10_000))
}

/// Nanoseconds a call, over one batch.
fn time_batch(calls: u32, run: &mut dyn FnMut()) -> f64 {
    let start = Instant::now();
    for _ in 0..calls {
        black_box(&mut *run)();
    }
    start.elapsed().as_nanos() as f64 / f64::from(calls)
}

fn median(mut times: Vec<f64>) -> f64 {
    times.sort_by(f64::total_cmp);
    times[times.len() / 2]
}
