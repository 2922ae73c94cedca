//! Times the builds of the library against each other, netlib's BLAS and OpenBLAS, in one run on one core.
//!
//! `bench [ROUTINE..]` prints a table for the named routines, or for all six. `bench summary` says in a line for each
//! routine and order how it does beside the peers and GEMM. `bench picture` draws docs/speed.svg, the rates of GEMM and
//! TRSM over the order. The peers of these three come from `peers.sh`. `bench pairs` looks for the best strip width and
//! block size of each build, `bench choice` times the jump to the build in use, `bench rank-update` compares SYRK of
//! order 512 with three nested loops, `bench steps` the steps of call sheets with direct calls, and `bench many` GEMM
//! of many items with as many direct calls and, if they are there, with those of the peers. `bench isolve` times integer
//! solutions.

mod blas;
mod choice;
mod isolve;
mod libraries;
mod many;
mod measure;
mod own;
mod pairs;
mod picture;
mod problem;
mod rank_update;
mod shared;
mod steps;
mod summary;
mod table;

use std::{env, process::ExitCode, time::Instant};
use thamrunlek::Routine;

/// Makes the call so many times and gives the seconds for one.
fn seconds(calls: u32, mut call: impl FnMut()) -> f64 {
    let start = Instant::now();
    for _ in 0..calls {
        call();
    }
    start.elapsed().as_secs_f64() / calls as f64
}

/// The routine of this name, as `gemm` or `dgemm`.
fn named(name: &str) -> Result<Routine, String> {
    let capitals = name.to_uppercase();
    let same = |routine: &Routine| routine.name() == capitals || routine.name()[1..] == capitals;
    Routine::ALL.into_iter().find(same).ok_or_else(|| format!("{name} is neither a routine nor a report"))
}

fn run(words: &[&str]) -> Result<(), String> {
    match words {
        ["picture"] => picture::draw(&libraries::all()?)?,
        ["pairs"] => pairs::report(&libraries::builds()?),
        ["choice"] => choice::report(),
        ["rank-update"] => rank_update::report(&libraries::builds()?)?,
        ["steps"] => steps::report(),
        ["many"] => many::report(&libraries::builds()?, libraries::peers()),
        ["isolve"] => isolve::report(&libraries::builds()?),
        ["summary"] => summary::report(libraries::all()?),
        [] => table::print(&Routine::ALL, &libraries::all()?),
        names => {
            let routines: Vec<Routine> = names.iter().map(|name| named(name)).collect::<Result<_, _>>()?;
            table::print(&routines, &libraries::all()?);
        }
    }
    Ok(())
}

fn main() -> ExitCode {
    let words: Vec<String> = env::args().skip(1).collect();
    let words: Vec<&str> = words.iter().map(String::as_str).collect();
    match run(&words) {
        Ok(()) => ExitCode::SUCCESS,
        Err(error) => {
            eprintln!("bench: {error}");
            ExitCode::FAILURE
        }
    }
}
