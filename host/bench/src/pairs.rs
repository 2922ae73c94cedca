//! The best pair of strip width and block size for each build.

use crate::libraries::Library;
use crate::measure::median;
use crate::own::{pairs, Blocks, Own, BLOCKS, GRID};
use crate::problem::{variants, Problem};
use thamrunlek::Routine;

const N: usize = 512;
const ROUNDS: usize = 11;

/// How many times as fast as the library's choice each pair is: the median of rounds in which each is timed beside it.
fn gains(own: &Own, problem: &Problem, pairs: &[Blocks]) -> Vec<f64> {
    let (mut out, mut gains) = (problem.start.clone(), vec![vec![]; pairs.len()]);
    let mut time = |pair: Blocks| {
        out.copy_from_slice(&problem.start);
        own.time(problem, &mut out, 1, pair)
    };
    for _ in 0..ROUNDS {
        for (&pair, gains) in pairs.iter().zip(&mut gains) {
            gains.push(time(BLOCKS) / time(pair));
        }
    }
    gains.into_iter().map(median).collect()
}

/// Prints the best pair for each routine and build.
pub fn report(builds: &[Library]) {
    let pairs = pairs();
    println!("n = {N}, w and r of {GRID:?}, each pair beside w = r = 0, medians of {ROUNDS} rounds");
    for routine in Routine::ALL {
        let problem = Problem::new(routine, variants(routine)[0], N);
        for build in builds {
            let gains = gains(build.own().expect("a build"), &problem, &pairs);
            let best = gains.iter().zip(&pairs).max_by(|x, y| x.0.total_cmp(y.0));
            let (gain, (w, r)) = best.expect("some pairs");
            println!("{:7}{:>10}: w {w:2}, r {r:2}: {gain:.2} times as fast", routine.name(), build.name);
        }
    }
}
