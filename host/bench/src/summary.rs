//! Every routine at small and large orders, in one line each: against the peers, and against GEMM of the same build.

use crate::libraries::Library;
use crate::measure::{median, Race};
use crate::problem::{variants, Problem};
use thamrunlek::Routine;

const ORDERS: [usize; 5] = [4, 8, 16, 64, 512];
const GROWTH: [usize; 2] = [512, 1024];

/// Rounds for a problem of order n.
fn rounds(n: usize) -> usize {
    match n {
        0..512 => 31,
        512..1024 => 9,
        _ => 5,
    }
}

/// Two problems, the second for the builds of this library alone: the rates of the libraries for each. The two take
/// turns, batch by batch, as the libraries do.
fn rates(problems: [Problem; 2], libraries: &[Library], builds: &[Library]) -> [Vec<f64>; 2] {
    let [first, second] = problems;
    let rounds = rounds(first.n.max(second.n));
    let mut races = [Race::new(first, libraries), Race::new(second, builds)];
    for _ in 0..rounds {
        races.iter_mut().for_each(|race| race.run(1));
    }
    races.map(|race| race.medians().into_iter().map(|time| race.problem.rate(time)).collect())
}

/// GEMM without transposes.
fn gemm(n: usize) -> Problem {
    Problem::new(Routine::Gemm, b"NN", n)
}

/// Prints a line for each routine and order, and the growth of GEMM.
pub fn report(libraries: Vec<Library>) {
    let wanted = |library: &Library| library.own().is_some() || ["netlib", "OB-SSE"].contains(&library.name);
    let libraries: Vec<Library> = libraries.into_iter().filter(wanted).collect();
    let builds: &[Library] = &libraries[..libraries.iter().filter(|library| library.own().is_some()).count()];
    let peers = [("netlib", builds), ("OB-SSE", &builds[..1])].map(|(name, builds)| {
        let place = libraries.iter().position(|library| library.name == name);
        (name, place.expect("a peer"), builds)
    });
    println!("rates divided, medians over the options of each routine, at w = r = 0: above 1 the build is faster");
    print!("{:7}{:>5}", "routine", "n");
    for (peer, _, builds) in peers {
        builds.iter().for_each(|build| print!("{:>19}", format!("{}/{peer}", build.name)));
    }
    builds.iter().for_each(|build| print!("{:>16}", format!("{}/GEMM", build.name)));
    println!();
    for n in ORDERS {
        for routine in Routine::ALL {
            let row = |options: &&'static [u8]| rates([Problem::new(routine, options, n), gemm(n)], &libraries, builds);
            let rows: Vec<[Vec<f64>; 2]> = variants(routine).iter().map(row).collect();
            print!("{:7}{n:5}", routine.name());
            for (_, peer, builds) in peers {
                for build in 0..builds.len() {
                    print!("{:19.2}", median(rows.iter().map(|[own, _]| own[build] / own[peer]).collect()));
                }
            }
            for build in 0..builds.len() {
                print!("{:16.2}", median(rows.iter().map(|[own, gemm]| own[build] / gemm[build]).collect()));
            }
            println!();
        }
    }
    let [small, large] = rates(GROWTH.map(gemm), builds, builds);
    for (build, (small, large)) in builds.iter().zip(small.into_iter().zip(large)) {
        let [m, n] = GROWTH;
        println!("GEMM, N N, {}: {small:.2} GFLOP/s at {m}, {large:.2} at {n}, {:.2} of it", build.name, large / small);
    }
}
