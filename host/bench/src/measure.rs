//! Several libraries timed for one problem.

use crate::libraries::Library;
use crate::problem::Problem;

/// A batch has as many calls as fit into this many seconds.
const BATCH: f64 = 5e-4;

/// The middle one, or the mean of the two in the middle.
pub fn median(mut times: Vec<f64>) -> f64 {
    times.sort_by(f64::total_cmp);
    let half = times.len() / 2;
    (times[half] + times[times.len() - 1 - half]) / 2.0
}

/// Whether the elements have the same bits, one by one.
pub fn same_bits(x: &[f64], y: &[f64]) -> bool {
    x.len() == y.len() && x.iter().zip(y).all(|(x, y)| x.to_bits() == y.to_bits())
}

/// A problem, and the times of each library for it. The libraries take turns, batch by batch, on the same arrays, so
/// that noise hits all alike.
pub struct Race<'l> {
    pub problem: Problem,
    libraries: &'l [Library],
    calls: Vec<u32>,
    times: Vec<Vec<f64>>,
}

impl Race<'_> {
    /// Makes the first call of each library. The builds of this one agree bit for bit, the others up to rounding.
    pub fn new(problem: Problem, libraries: &[Library]) -> Race<'_> {
        let mut expected = problem.start.clone();
        libraries[0].time(&problem, &mut expected, 1);
        let mut calls = vec![];
        for library in libraries {
            let mut out = problem.start.clone();
            let cold = library.time(&problem, &mut out, 1);
            let same = |(x, y): (&f64, &f64)| match library.own() {
                Some(_) => x.to_bits() == y.to_bits(),
                None => (x - y).abs() < 1e-10,
            };
            assert!(out.iter().zip(&expected).all(same), "{} gives something else", library.name);
            let warm = if cold < BATCH { library.time(&problem, &mut out, 10) } else { cold };
            calls.push((BATCH / warm).clamp(1.0, 1e5) as u32);
        }
        Race { problem, libraries, calls, times: vec![vec![]; libraries.len()] }
    }

    /// Each library makes a batch of calls, so many times.
    pub fn run(&mut self, rounds: usize) {
        let mut out = self.problem.start.clone();
        for _ in 0..rounds {
            for (place, library) in self.libraries.iter().enumerate() {
                out.copy_from_slice(&self.problem.start);
                self.times[place].push(library.time(&self.problem, &mut out, self.calls[place]));
            }
        }
    }

    /// The median seconds of a call, for each library.
    pub fn medians(&self) -> Vec<f64> {
        self.times.iter().cloned().map(median).collect()
    }
    /// The least seconds of a call, for each library: what it takes while nothing else disturbs the machine.
    pub fn bests(&self) -> Vec<f64> {
        self.times.iter().map(|times| times.iter().copied().fold(f64::INFINITY, f64::min)).collect()
    }
}
