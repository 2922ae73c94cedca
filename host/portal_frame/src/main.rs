//! Runs the portal frame's call sheet and prints displacements and end moments as a table.

use portal_frame::{sheet, COMBINATIONS, ENDS, FACTOR, UNKNOWNS};
use std::process::ExitCode;

const WIDTH: i32 = 3;
const BLOCK: i32 = 0;
const BUDGET: u32 = 4;

/// A line of the table: row `row` of a matrix with a column for each combination.
fn line(name: &str, unit: &str, values: impl Iterator<Item = f64>) {
    let values: String = values.map(|value| format!("{value:18.3}")).collect();
    println!("  {name:<6}{unit:<5}{values}");
}

fn main() -> ExitCode {
    let finished = match sheet::response(&FACTOR, WIDTH, BLOCK, BUDGET) {
        Ok(finished) => finished,
        Err(failure) => {
            eprintln!("{failure}");
            return ExitCode::FAILURE;
        }
    };
    let (runs, total): (usize, u32) = (finished.steps.len(), finished.steps.iter().sum());
    println!(
        "Portal frame: a call sheet of {} records, on the build for {},",
        finished.answers.len(),
        thamrunlek::cpu()
    );
    println!("made in {total} steps by {runs} runs of at most {BUDGET}; answers {:?}\n", finished.answers);

    let (x, m) = (&finished.response.displacements, &finished.response.moments);
    println!("{:13}{}", "", COMBINATIONS.map(|name| format!("{name:>18}")).concat());
    println!("displacements");
    for (row, name) in UNKNOWNS.iter().enumerate() {
        let unit = if row == 0 { "mm" } else { "mrad" };
        line(name, unit, (0..4).map(|column| 1000.0 * x[3 * column + row]));
    }
    println!("end moments");
    for (row, name) in ENDS.iter().enumerate() {
        line(name, "kNm", (0..4).map(|column| m[6 * column + row]));
    }
    if finished.answers == [0; 5] {
        ExitCode::SUCCESS
    } else {
        ExitCode::FAILURE
    }
}
