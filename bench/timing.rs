//! Times of several works, in rounds that run each of them once, so that what slows the machine for a while slows them all.

use std::time::Instant;

pub const ROUNDS: usize = 9;

/// The times of each work, a list of rounds each, in nanoseconds.
pub struct Times(Vec<Vec<f64>>);

/// Runs so many works, by their places, in so many rounds.
pub fn rounds(rounds: usize, count: usize, mut work: impl FnMut(usize)) -> Times {
    let mut times = vec![Vec::new(); count];
    for round in 0..rounds {
        for place in 0..count {
            let which = (round + place) % count;
            let began = Instant::now();
            work(which);
            times[which].push(began.elapsed().as_secs_f64() * 1e9);
        }
    }
    Times(times)
}

pub fn median(mut numbers: Vec<f64>) -> f64 {
    numbers.sort_by(f64::total_cmp);
    numbers[numbers.len() / 2]
}

impl Times {
    /// The median time of a work.
    pub fn of(&self, which: usize) -> f64 {
        median(self.0[which].clone())
    }

    /// The median over the rounds of one work's time by another's.
    pub fn ratio(&self, which: usize, other: usize) -> f64 {
        median(self.0[which].iter().zip(&self.0[other]).map(|(time, other)| time / other).collect())
    }

    /// The median over the rounds of what one work takes longer than another.
    pub fn more(&self, which: usize, other: usize) -> f64 {
        median(self.0[which].iter().zip(&self.0[other]).map(|(time, other)| time - other).collect())
    }
}
