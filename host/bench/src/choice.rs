//! What the choice between the builds costs a tiny call: a name of the library is a jump through a pointer.

use crate::measure::median;
use crate::own::{Own, BLOCKS};
use crate::problem::Problem;
use thamrunlek::Routine;

const N: usize = 4;
const CALLS: u32 = 10_000;
const ROUNDS: usize = 301;

/// Prints the time of GEMM by its name and by the address of the build's function, by turns, and the median of the
/// ratios of two neighbours.
pub fn report() {
    let problem = Problem::new(Routine::Gemm, b"NN", N);
    let (by_name, behind) = (Own::linked(), Own::linked().behind_the_jump());
    let mut out = problem.start.clone();
    let (mut by_names, mut behinds, mut ratios) = (vec![], vec![], vec![]);
    for _ in 0..ROUNDS {
        let first = by_name.time(&problem, &mut out, CALLS, BLOCKS);
        let second = behind.time(&problem, &mut out, CALLS, BLOCKS);
        by_names.push(first);
        behinds.push(second);
        ratios.push(first / second);
    }
    println!("GEMM, n = {N}, on the build for {}, medians of {ROUNDS} rounds of {CALLS} calls:", thamrunlek::cpu());
    println!(
        "by its name {:.1} ns, the build's function itself {:.1} ns; ratio {:.3}",
        1e9 * median(by_names),
        1e9 * median(behinds),
        median(ratios)
    );
}
