//! Times of several jobs, taken in turns.

use std::time::Instant;

/// A job that is timed: calls do the same again and again.
pub type Job<'a> = &'a mut dyn FnMut();

/// Calls a second.
#[derive(Clone, Copy, Debug)]
pub struct Rate {
    /// Of the middle sample.
    pub median: f64,
    /// Of the fastest sample, on which other work on the machine tells least.
    pub best: f64,
}

/// The rate of each job, from `samples` samples that take `goal` seconds each or a little more. The
/// jobs take turns, so that what else the machine does falls on all of them.
pub fn rates(jobs: &mut [Job], goal: f64, samples: usize) -> Vec<Rate> {
    let rounds: Vec<u64> = jobs.iter_mut().map(|job| rounds_for(job, goal)).collect();
    let mut times = vec![Vec::with_capacity(samples); jobs.len()];
    for _ in 0..samples {
        for ((job, times), rounds) in jobs.iter_mut().zip(&mut times).zip(&rounds) {
            times.push(seconds(job, *rounds));
        }
    }
    let both = times.iter_mut().zip(&rounds);
    both.map(|(times, rounds)| rate(times, *rounds)).collect()
}

/// How many calls of a job take `goal` seconds.
fn rounds_for(job: &mut Job, goal: f64) -> u64 {
    let mut rounds = 1;
    while seconds(job, rounds) < goal {
        rounds *= 2;
    }
    rounds
}

fn seconds(job: &mut Job, rounds: u64) -> f64 {
    let start = Instant::now();
    for _ in 0..rounds {
        job();
    }
    start.elapsed().as_secs_f64()
}

fn rate(times: &mut [f64], rounds: u64) -> Rate {
    times.sort_by(f64::total_cmp);
    Rate {
        median: rounds as f64 / time_at(times, times.len() / 2),
        best: rounds as f64 / time_at(times, 0),
    }
}

/// The time at a place, not below a nanosecond; 1 second where there is none.
fn time_at(times: &[f64], at: usize) -> f64 {
    times.get(at).map_or(1.0, |t| t.max(1e-9))
}
