//! The frame as a call sheet.

use crate::*;
use thamrunlek::{run, Cursor};

/// The given matrices, which stand behind the factor of the stiffness in array X, and the first elements of all five
/// there.
const GIVEN: [&[f64]; 4] = [&END_STIFFNESS, &LOADS, &FIXED_END_MOMENTS, &FACTORS];
const AT: [i32; 5] = [0, 9, 27, 36, 54];

const GEMM: i32 = 1;
const TRSM: i32 = 6;
const L: i32 = 'L' as i32;
const N: i32 = 'N' as i32;
const T: i32 = 'T' as i32;

/// The numbers of the lent arrays: what is given, displacements, moments.
const X: i32 = 0;
const Y: i32 = 1;
const Z: i32 = 2;

/// The calls of [`direct`], with α and β of each in `SCALARS`. The last two words say that the first of five records is
/// at word 0.
#[rustfmt::skip]
fn sheet(w: i32, r: i32) -> Vec<i32> {
    let [factor, stiffness, loads, fixed, factors] = AT;
    let records = [
        // routine, side, uplo, transa, transb, diag; m, n, k; array, first element and ld of A, of B, of C; w, r
        [GEMM, 0, 0, N, N, 0, 3, 4, 3, X, loads,     3, X, factors, 3, Y, 0, 3, w, r],
        [TRSM, L, L, N, 0, N, 3, 4, 0, X, factor,    3, Y, 0,       3, 0, 0, 0, w, r],
        [TRSM, L, L, T, 0, N, 3, 4, 0, X, factor,    3, Y, 0,       3, 0, 0, 0, w, r],
        [GEMM, 0, 0, N, N, 0, 6, 4, 3, X, fixed,     6, X, factors, 3, Z, 0, 6, w, r],
        [GEMM, 0, 0, N, N, 0, 6, 4, 3, X, stiffness, 6, Y, 0,       3, Z, 0, 6, w, r],
    ];
    records.concat().into_iter().chain([0, 5]).collect()
}

const SCALARS: [f64; 10] = [1.0, 0.0, 1.0, 0.0, 1.0, 0.0, 1.0, 0.0, 1.0, 1.0];

/// What a sheet left, once it was finished.
pub struct Finished {
    /// The frame's answer.
    pub response: Response,
    /// The answer of each record: 0, or the number of its refusal.
    pub answers: [i32; 5],
    /// The steps of each run.
    pub steps: Vec<u32>,
}

/// Runs the sheet with the factor of the stiffness, strips of w columns and blocks of r, at most `budget` steps at a
/// time, which must not be 0.
pub fn response(factor: &[f64; 9], w: i32, r: i32, budget: u32) -> Result<Finished, Failure> {
    let mut given = [&factor[..], &GIVEN.concat()].concat();
    let (mut displacements, mut moments, mut answers) = ([0.0; 12], [0.0; 24], [-1; 5]);
    let (sheet, mut cursor, mut steps) = (sheet(w, r), Cursor::default(), vec![]);
    while cursor.record < 5 {
        let ran = run(&sheet, &SCALARS, &mut given, &mut displacements, &mut moments, &mut answers, cursor, budget)?;
        if let Some(record) = ran.zero {
            return Err(Failure::Record(record));
        }
        cursor = ran.cursor;
        steps.push(ran.steps);
    }
    Ok(Finished { response: Response { displacements, moments }, answers, steps })
}
