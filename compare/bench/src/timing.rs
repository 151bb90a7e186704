//! Medians of times.
use crate::cases::Side;
use std::time::{Duration, Instant};

/// The median, in nanoseconds, of single runs that were made for some time; the first fifth of them warms up.
pub fn median(for_time: Duration, mut sample: impl FnMut() -> f64) -> f64 {
    let start = Instant::now();
    let mut times = Vec::new();
    while times.len() < 25 || (start.elapsed() < for_time && times.len() < 20_000) {
        times.push(sample());
    }
    times.drain(..times.len() / 5);
    times.sort_by(f64::total_cmp);
    times[times.len() / 2]
}

/// One run of a side; what prepares it is not in its time.
pub fn run(side: &mut dyn Side) -> f64 {
    side.prepare();
    let start = Instant::now();
    side.work();
    start.elapsed().as_nanos() as f64
}

/// One call of many in a row, for calls that leave everything as it was.
pub fn row(calls: u32, mut call: impl FnMut()) -> f64 {
    let start = Instant::now();
    (0..calls).for_each(|_| call());
    start.elapsed().as_nanos() as f64 / calls as f64
}
