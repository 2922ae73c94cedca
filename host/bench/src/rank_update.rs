//! SYRK of order 512 against three nested loops: n = k = 512, uplo L, trans N, α = 1, β = 0 (document 02, K13).

use crate::libraries::Library;
use crate::measure::{median, same_bits};
use crate::own::{pairs, Blocks, Own, GRID};
use crate::problem::Problem;
use crate::seconds;
use thamrunlek::Routine;

const N: usize = 512;
const ROUNDS: usize = 9;

/// The lower triangle of A·Aᵀ, the terms innermost.
fn loops(a: &[f64], c: &mut [f64]) {
    for j in 0..N {
        for i in j..N {
            let mut e = 0.0;
            for l in 0..N {
                e += (1.0 * a[l * N + j]) * a[l * N + i];
            }
            c[j * N + i] = e;
        }
    }
}

/// One way to make the call: it writes C and gives the seconds that it took.
type Way<'w> = Box<dyn Fn(&mut [f64]) -> f64 + 'w>;

fn by_loops(problem: &Problem) -> Way<'_> {
    Box::new(|c| seconds(1, || loops(&problem.a, c)))
}

fn by_syrk<'w>(own: &'w Own, problem: &'w Problem, pair: Blocks) -> Way<'w> {
    Box::new(move |c| own.time(problem, c, 1, pair))
}

/// The median seconds of nine calls for each way. The ways take turns on the same arrays, so that noise hits all alike,
/// and every call has to leave the bits that the first one left.
fn medians(ways: &[Way], start: &[f64]) -> Vec<f64> {
    let (mut c, mut expected) = (start.to_vec(), start.to_vec());
    ways[0](&mut expected);
    let mut times = vec![vec![]; ways.len()];
    for _ in 0..ROUNDS {
        for (way, times) in ways.iter().zip(&mut times) {
            c.copy_from_slice(start);
            times.push(way(&mut c));
            assert!(same_bits(&c, &expected), "the bits differ");
        }
    }
    times.into_iter().map(median).collect()
}

/// Prints the times of all pairs, a row for each strip width and a column for each block size.
fn print_grid(name: &str, times: &[f64]) {
    let row = |head: &str, cells: Vec<String>| {
        println!("{head:>10}{}", cells.iter().map(|cell| format!("{cell:>8}")).collect::<String>());
    };
    row(name, GRID.iter().map(|r| format!("r {r}")).collect());
    for (w, times) in GRID.iter().zip(times.chunks(GRID.len())) {
        row(&format!("w {w}"), times.iter().map(|time| format!("{time:.2}")).collect());
    }
}

/// Prints the loops' time, and for each build those of all pairs, the best pair, its time and the ratio. It is an error
/// if the loops are faster.
pub fn report(builds: &[Library]) -> Result<(), String> {
    let (problem, pairs) = (Problem::new(Routine::Syrk, b"LN", N), pairs());
    let mut ways = vec![by_loops(&problem)];
    for build in builds {
        let own = build.own().expect("a build");
        ways.extend(pairs.iter().map(|&pair| by_syrk(own, &problem, pair)));
    }
    let times: Vec<f64> = medians(&ways, &problem.start).into_iter().map(|time| 1e3 * time).collect();
    println!("SYRK, n = k = {N}, uplo L, trans N, alpha 1, beta 0: milliseconds, medians of {ROUNDS} calls, same bits");
    println!("three nested loops {:.2}", times[0]);
    for (build, of_pairs) in builds.iter().zip(times[1..].chunks(pairs.len())) {
        println!();
        print_grid(build.name, of_pairs);
        let best = of_pairs.iter().zip(&pairs).min_by(|x, y| x.0.total_cmp(y.0));
        let (time, (w, r)) = best.expect("some pairs");
        let ratio = times[0] / time;
        println!("best pair w {w}, r {r}: {time:.2}; loops {:.2}; {ratio:.1} times as fast", times[0]);
        if ratio < 1.0 {
            return Err(format!("the loops are faster than the build for {}", build.name));
        }
    }
    Ok(())
}

#[cfg(test)]
mod tests {
    use super::*;

    #[test]
    fn the_loops_have_the_bits_of_syrk() {
        let (problem, own) = (Problem::new(Routine::Syrk, b"LN", N), Own::linked());
        let mut expected = problem.start.clone();
        by_loops(&problem)(&mut expected);
        for pair in pairs() {
            let mut c = problem.start.clone();
            by_syrk(&own, &problem, pair)(&mut c);
            assert!(same_bits(&c, &expected), "w and r {pair:?}");
        }
    }
}
