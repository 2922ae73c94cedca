//! A portal frame by the slope-deflection method: two columns of 4 m (HEB 240) with fixed feet A and D, and a beam of
//! 6 m (IPE 400) from B to C. The unknowns are the sway u of the beam and the rotations of B and C.
//!
//! Matrices are stored by columns. Forces are in kN, moments in kNm, displacements in m and rad.

#![forbid(unsafe_code)]
#![deny(missing_docs)]

pub mod direct;
pub mod sheet;

use std::{error, fmt};
use thamrunlek::{Refusal, RunRefusal};

/// The unknowns: sway, rotation of B, rotation of C.
pub const UNKNOWNS: [&str; 3] = ["u", "phi B", "phi C"];
/// The ends of the members, whose moments are wanted.
pub const ENDS: [&str; 6] = ["AB", "BA", "BC", "CB", "CD", "DC"];
/// The combinations of the load cases.
pub const COMBINATIONS: [&str; 4] = ["1.35G+1.5Q", "1.35G+1.5Q+0.9W", "1.35G+1.05Q+1.5W", "G+1.5W"];

/// The lower triangular factor L of the stiffness L·Lᵀ, 3 by 3. What is above the diagonal is not read.
pub const FACTOR: [f64; 9] = [
    94.16607669431704,
    -94.16607669431706,
    -94.16607669431706,
    0.0,
    217.16525965264333,
    33.72431673332265,
    0.0,
    0.0,
    214.5306981783039,
];

/// The end moments that each unknown alone would cause, 6 by 3.
#[rustfmt::skip]
pub const END_STIFFNESS: [f64; 18] = [
    -8867.25, -8867.25,     0.0,     0.0, -8867.25, -8867.25,
     11823.0,  23646.0, 32382.0, 16191.0,      0.0,      0.0,
         0.0,      0.0, 16191.0, 32382.0,  23646.0,  11823.0,
];

/// The loads on the unknowns in each load case, 3 by 3: dead load G and live load Q on the beam, wind W on its end.
pub const LOADS: [f64; 9] = [0.0, 36.0, -36.0, 0.0, 54.0, -54.0, 20.0, 0.0, 0.0];

/// The end moments in each load case with all unknowns held at zero, 6 by 3.
#[rustfmt::skip]
pub const FIXED_END_MOMENTS: [f64; 18] = [
    0.0, 0.0, -36.0, 36.0, 0.0, 0.0,
    0.0, 0.0, -54.0, 54.0, 0.0, 0.0,
    0.0, 0.0,   0.0,  0.0, 0.0, 0.0,
];

/// The factors of the load cases in each combination, 3 by 4.
pub const FACTORS: [f64; 12] = [1.35, 1.5, 0.0, 1.35, 1.5, 0.9, 1.35, 1.05, 1.5, 1.0, 0.0, 1.5];

/// The frame's answer to each combination.
#[derive(Clone, Debug, PartialEq)]
pub struct Response {
    /// The unknowns, 3 by 4.
    pub displacements: [f64; 12],
    /// The moments at the ends of the members, 6 by 4.
    pub moments: [f64; 24],
}

/// Why there is no response.
#[derive(Clone, Copy, Debug, PartialEq, Eq)]
pub enum Failure {
    /// A direct call is refused.
    Call(Refusal),
    /// A run of the sheet is refused.
    Run(RunRefusal),
    /// Nothing holds this unknown: the frame is a mechanism.
    Unheld(&'static str),
    /// The solve of this record has a zero on the diagonal: the frame is a mechanism.
    Record(i32),
}

impl From<Refusal> for Failure {
    fn from(refusal: Refusal) -> Failure {
        Failure::Call(refusal)
    }
}

impl From<RunRefusal> for Failure {
    fn from(refusal: RunRefusal) -> Failure {
        Failure::Run(refusal)
    }
}

impl fmt::Display for Failure {
    fn fmt(&self, f: &mut fmt::Formatter) -> fmt::Result {
        match self {
            Failure::Call(refusal) => write!(f, "{refusal}"),
            Failure::Run(refusal) => write!(f, "the sheet is refused with number {}: {refusal}", refusal.number()),
            Failure::Unheld(unknown) => write!(f, "nothing holds {unknown}: the frame is a mechanism"),
            Failure::Record(record) => {
                write!(f, "record {record} solves with a zero on the diagonal: the frame is a mechanism")
            }
        }
    }
}

impl error::Error for Failure {}
