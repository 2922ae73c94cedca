//! The portal frame by direct calls in Rust. direct.c and direct.f90 do the same and print the same.

use portal_frame::{direct, ENDS, FACTOR, UNKNOWNS};
use std::process::ExitCode;
use thamrunlek::Blocks;

/// Prints a matrix of four columns: each entry's row, column, value and bits.
fn print(rows: &[&str], values: &[f64]) {
    for (p, value) in values.iter().enumerate() {
        println!("{:<6}{:2}{value:14.6}  {:016X}", rows[p % rows.len()], p / rows.len() + 1, value.to_bits());
    }
}

fn main() -> ExitCode {
    match direct::response(&FACTOR, Blocks::default()) {
        Ok(response) => {
            print(&UNKNOWNS, &response.displacements);
            print(&ENDS, &response.moments);
            ExitCode::SUCCESS
        }
        // A refusal, or the unknown that nothing holds.
        Err(failure) => {
            eprintln!("{failure}");
            ExitCode::FAILURE
        }
    }
}
