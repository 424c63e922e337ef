//! Medians of interleaved runs.

use std::time::Instant;

/// Each job is run at least so often, and more often while all of them together take under a second.
const LEAST_RUNS: usize = 3;
const MOST_RUNS: usize = 25;

/// The median seconds of each job, run in turn so that a slow moment of the machine hits all of them.
pub fn medians<const N: usize>(jobs: [&mut dyn FnMut(); N]) -> [f64; N] {
    medians_of(MOST_RUNS, jobs)
}

/// The same with at most so many runs.
pub fn medians_of<const N: usize>(most: usize, jobs: [&mut dyn FnMut(); N]) -> [f64; N] {
    let mut seconds = [const { Vec::new() }; N];
    let mut jobs = jobs;
    for job in jobs.iter_mut() {
        job(); // warm
    }
    let begin = Instant::now();
    for run in 0..most {
        if run >= LEAST_RUNS && begin.elapsed().as_secs_f64() > 1.0 {
            break;
        }
        for (job, times) in jobs.iter_mut().zip(seconds.iter_mut()) {
            let start = Instant::now();
            job();
            times.push(start.elapsed().as_secs_f64());
        }
    }
    seconds.map(|mut times: Vec<f64>| {
        times.sort_by(f64::total_cmp);
        times[times.len() / 2]
    })
}

/// The geometric mean and the worst of some ratios.
pub fn summary(ratios: &[f64]) -> (f64, f64) {
    let mean = (ratios.iter().map(|r| r.ln()).sum::<f64>() / ratios.len() as f64).exp();
    (mean, ratios.iter().copied().fold(0.0, f64::max))
}
