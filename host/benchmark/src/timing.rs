//! How a piece of work is timed.

use std::time::Instant;

/// The best of some repetitions, in ns for each of so many parts of the work.
pub fn best(repetitions: usize, parts: u64, mut work: impl FnMut()) -> f64 {
    let times = (0..repetitions).map(|_| {
        let start = Instant::now();
        work();
        start.elapsed().as_nanos() as f64 / parts as f64
    });
    times.fold(f64::INFINITY, f64::min)
}
