//! The frame by direct calls.

use crate::*;
use thamrunlek::{gemm, trsm, Blocks, Diagonal::NonUnit, Side::Left, Transpose, Transpose::*, Triangle::Lower};

/// Loads of the combinations by GEMM, displacements by two TRSM with the factor of the stiffness, end moments by two
/// GEMM.
pub fn response(factor: &[f64; 9], blocks: Blocks) -> Result<Response, Failure> {
    let (mut x, mut m) = ([0.0; 12], [0.0; 24]);
    gemm(No, No, 3, 4, 3, 1.0, &LOADS, 3, &FACTORS, 3, 0.0, &mut x, 3, blocks)?;
    solve(No, factor, &mut x, blocks)?;
    solve(Yes, factor, &mut x, blocks)?;
    gemm(No, No, 6, 4, 3, 1.0, &FIXED_END_MOMENTS, 6, &FACTORS, 3, 0.0, &mut m, 6, blocks)?;
    gemm(No, No, 6, 4, 3, 1.0, &END_STIFFNESS, 6, &x, 3, 1.0, &mut m, 6, blocks)?;
    Ok(Response { displacements: x, moments: m })
}

/// A solve with the factor or its transpose. A zero on the diagonal means that nothing holds the unknown there.
fn solve(transa: Transpose, factor: &[f64; 9], x: &mut [f64; 12], blocks: Blocks) -> Result<(), Failure> {
    let solved = trsm(Left, Lower, transa, NonUnit, 3, 4, 1.0, factor, 3, x, 3, blocks)?;
    solved.zero.map_or(Ok(()), |unknown| Err(Failure::Unheld(UNKNOWNS[unknown as usize])))
}
