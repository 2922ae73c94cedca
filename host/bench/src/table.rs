//! The table of rates and ratios.

use crate::libraries::Library;
use crate::measure::Race;
use crate::problem::{variants, Problem};
use thamrunlek::Routine;

const SIZES: [usize; 6] = [4, 8, 16, 64, 128, 512];

/// Rounds for a problem of order n.
fn rounds(n: usize) -> usize {
    if n < 512 {
        45
    } else {
        15
    }
}

/// Whose time is divided by whose: the builds against the first, and each against the peer with registers as wide.
const RATIOS: [(&str, &str); 7] = [
    ("x86-64", "x86-64-v3"),
    ("x86-64", "x86-64-v4"),
    ("netlib", "x86-64"),
    ("OB-SSE", "x86-64"),
    ("OB-Haswell", "x86-64-v3"),
    ("OB-SkylakeX", "x86-64-v4"),
    ("OpenBLAS", "x86-64-v4"),
];

/// Prints a row for each variant and size: the libraries' rates in GFLOP/s, and the ratios of their times.
pub fn print(routines: &[Routine], libraries: &[Library]) {
    let place = |name: &str| libraries.iter().position(|library| library.name == name);
    let ratios: Vec<(usize, usize)> =
        RATIOS.iter().filter_map(|(peer, build)| Some((place(peer)?, place(build)?))).collect();
    println!("rates in GFLOP/s, the medians of {} batches ({} at n = 512), at w = r = 0", rounds(4), rounds(512));
    println!("then ratios of times: above 1 the second of the two is faster");
    let (mut above, mut below) = (format!("{:17}", ""), format!("{:7}{:>5}{:>5}", "routine", "", "n"));
    for library in libraries {
        above += &format!("{:12}", "");
        below += &format!("{:>12}", library.name);
    }
    for &(peer, build) in &ratios {
        above += &format!("{:>12}", libraries[peer].name);
        below += &format!("{:>12}", format!("/{}", libraries[build].name));
    }
    println!("{above}\n{below}");
    for &routine in routines {
        for options in variants(routine) {
            for n in SIZES {
                let mut race = Race::new(Problem::new(routine, options, n), libraries);
                race.run(rounds(n));
                let times = race.medians();
                print!("{:7}{:>5}{n:5}", routine.name(), String::from_utf8_lossy(options));
                times.iter().for_each(|time| print!("{:12.2}", race.problem.rate(*time)));
                ratios.iter().for_each(|&(peer, build)| print!("{:12.2}", times[peer] / times[build]));
                println!();
            }
        }
    }
}
