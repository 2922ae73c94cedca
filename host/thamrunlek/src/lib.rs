//! The six Level 3 BLAS routines on `f64` and a runner for lists of calls, proved: a call ends without a fault on any
//! input, its result is bit for bit what the definitions say, and the bits do not depend on strip widths, block sizes,
//! budgets or the machine.
//!
//! Matrices are stored by columns: entry (i, j), both from 0, of an array with leading dimension `ld` is element
//! `j * ld + i`. An array of p rows and q columns needs `ld * (q - 1) + p` elements, or none if p or q is 0. op(A) is A
//! or its transpose. Sizes and leading dimensions are `i32`, as in the BLAS: a leading dimension is at least 1, and at
//! least the rows that its matrix is stored with.
//!
//! Each element is worked out in a fixed order, every operation rounded once: it starts as +0.0 if β is zero (the old
//! element is not read), as the old element if β is one, else as β times it; then each term adds (α·v)·u, u from the
//! left factor and v from the right, in ascending order and without skipping any.
//!
//! Beside them, [`isolve`] solves triangular systems over whole numbers, with entries of 16 bits.
//!
//! # Example
//!
//! ```
//! use thamrunlek::{gemm, Blocks, Transpose::No};
//!
//! let a = [1.0, 3.0, 2.0, 4.0];
//! let b = [5.0, 7.0, 6.0, 8.0];
//! let mut c = [0.0; 4];
//! gemm(No, No, 2, 2, 2, 1.0, &a, 2, &b, 2, 0.0, &mut c, 2, Blocks::default())?;
//! assert_eq!(c, [19.0, 43.0, 22.0, 50.0]);
//!
//! let refusal = gemm(No, No, 2, 2, 2, 1.0, &a, 1, &b, 2, 0.0, &mut c, 2, Blocks::default()).unwrap_err();
//! assert_eq!(refusal.number(), 8);
//! assert_eq!(refusal.to_string(), "DGEMM: argument 8 (lda) is below 1 or below the rows of its matrix");
//! # Ok::<(), thamrunlek::Refusal>(())
//! ```

#![deny(missing_docs, unsafe_code)]
#![allow(clippy::too_many_arguments)]

mod isolve;
mod options;
pub mod raw;
mod refusal;
mod sheet;

pub use isolve::{isolve, IsolveRefusal, Solution};
pub use options::{Blocks, Diagonal, Side, Transpose, Triangle};
pub use refusal::{Refusal, Routine};
pub use sheet::{run, Cursor, Ran, RunRefusal};

/// The build of the library that is in use: `x86-64`, `x86-64-v3` or `x86-64-v4`, after the level of x86-64 that its
/// processors have. The library takes the widest one that processor and operating system support, once, when it is
/// loaded; the environment variable `THAMRUNLEK_CPU` names a narrower one to take. All of them give the same bits.
pub fn cpu() -> &'static str {
    raw::cpu()
}

/// C ← α·op(A)·op(B) + β·C. op(A) is m by k, op(B) k by n and C m by n.
pub fn gemm(
    transa: Transpose, transb: Transpose, m: i32, n: i32, k: i32, alpha: f64, a: &[f64], lda: i32, b: &[f64], ldb: i32,
    beta: f64, c: &mut [f64], ldc: i32, blocks: Blocks,
) -> Result<(), Refusal> {
    let Blocks { width, size } = blocks;
    let (transa, transb) = (transa.code(), transb.code());
    let number = raw::gemm(transa, transb, m, n, k, alpha, a, lda, b, ldb, beta, c, ldc, width, size);
    Refusal::of(Routine::Gemm, number)
}

/// C ← α·A·op(B) + β·C for one A and many items, each with its own B and C; every C becomes what its own [`gemm`] would
/// make of it. A is m by k, op(B) k by n and C m by n. There are 0 to 1000 items: item i has its B at `i * b_stride` of
/// `b` and its C at `i * c_stride` of `c`. The stride of C is at least what C needs, that of B may be 0.
///
/// If `lda` is m, A is read where it stands, and `pack` may be empty. Otherwise A's columns are first copied to the
/// beginning of `pack`, without padding, unless m, n, k, α or the number of items is zero; `pack` has m·k elements or
/// more, and what is not copied over keeps its content. Ok has the elements copied: m·k, or 0.
///
/// # Example
///
/// The moments at both ends of a member from the rotations of its ends, for three load cases:
///
/// ```
/// use thamrunlek::{gemm_many, Blocks, Transpose::No};
///
/// let member = [4.0, 2.0, 0.0, 2.0, 4.0, 0.0]; // 2 by 2, with leading dimension 3
/// let rotations = [1.0, 0.0, 0.5, -0.5, 1.0, 1.0];
/// let (mut moments, mut pack) = ([0.0; 6], [0.0; 4]);
/// let blocks = Blocks::default();
/// let copied =
///     gemm_many(No, 2, 1, 2, 1.0, &member, 3, &rotations, 2, 2, 0.0, &mut moments, 2, 2, 3, &mut pack, blocks)?;
/// assert_eq!(moments, [4.0, 2.0, 1.0, -1.0, 6.0, 6.0]);
/// assert_eq!(pack[..copied], [4.0, 2.0, 2.0, 4.0]);
/// # Ok::<(), thamrunlek::Refusal>(())
/// ```
pub fn gemm_many(
    transb: Transpose, m: i32, n: i32, k: i32, alpha: f64, a: &[f64], lda: i32, b: &[f64], ldb: i32, b_stride: i32,
    beta: f64, c: &mut [f64], ldc: i32, c_stride: i32, items: i32, pack: &mut [f64], blocks: Blocks,
) -> Result<usize, Refusal> {
    let (transb, Blocks { width, size }) = (transb.code(), blocks);
    let raw::ManyEnd { number, copied } = raw::gemm_many(
        transb, m, n, k, alpha, a, lda, b, ldb, b_stride, beta, c, ldc, c_stride, items, pack, width, size,
    );
    Refusal::of(Routine::Gemm, number)?;
    Ok(copied as usize)
}

/// C ← α·A·B + β·C (side left, A of order m) or C ← α·B·A + β·C (side right, A of order n). A is symmetric and only
/// its triangle `uplo` is read; B and C are m by n.
pub fn symm(
    side: Side, uplo: Triangle, m: i32, n: i32, alpha: f64, a: &[f64], lda: i32, b: &[f64], ldb: i32, beta: f64,
    c: &mut [f64], ldc: i32, blocks: Blocks,
) -> Result<(), Refusal> {
    let Blocks { width, size } = blocks;
    let number = raw::symm(side.code(), uplo.code(), m, n, alpha, a, lda, b, ldb, beta, c, ldc, width, size);
    Refusal::of(Routine::Symm, number)
}

/// C ← α·op(A)·op(A)ᵀ + β·C. op(A) is n by k and C n by n; only triangle `uplo` of C is read or written.
pub fn syrk(
    uplo: Triangle, trans: Transpose, n: i32, k: i32, alpha: f64, a: &[f64], lda: i32, beta: f64, c: &mut [f64],
    ldc: i32, blocks: Blocks,
) -> Result<(), Refusal> {
    let Blocks { width, size } = blocks;
    let number = raw::syrk(uplo.code(), trans.code(), n, k, alpha, a, lda, beta, c, ldc, width, size);
    Refusal::of(Routine::Syrk, number)
}

/// C ← α·op(A)·op(B)ᵀ + α·op(B)·op(A)ᵀ + β·C. op(A) and op(B) are n by k and C n by n; only triangle `uplo` of C is
/// read or written. All terms of the first product come before those of the second.
pub fn syr2k(
    uplo: Triangle, trans: Transpose, n: i32, k: i32, alpha: f64, a: &[f64], lda: i32, b: &[f64], ldb: i32, beta: f64,
    c: &mut [f64], ldc: i32, blocks: Blocks,
) -> Result<(), Refusal> {
    let Blocks { width, size } = blocks;
    let number = raw::syr2k(uplo.code(), trans.code(), n, k, alpha, a, lda, b, ldb, beta, c, ldc, width, size);
    Refusal::of(Routine::Syr2k, number)
}

/// B ← α·op(A)·B (side left, A of order m) or B ← α·B·op(A) (side right, A of order n). A is triangular, only its
/// triangle `uplo` is read; B is m by n.
pub fn trmm(
    side: Side, uplo: Triangle, transa: Transpose, diag: Diagonal, m: i32, n: i32, alpha: f64, a: &[f64], lda: i32,
    b: &mut [f64], ldb: i32, blocks: Blocks,
) -> Result<(), Refusal> {
    let Blocks { width, size } = blocks;
    let (side, uplo, transa, diag) = (side.code(), uplo.code(), transa.code(), diag.code());
    let number = raw::trmm(side, uplo, transa, diag, m, n, alpha, a, lda, b, ldb, width, size);
    Refusal::of(Routine::Trmm, number)
}

/// What a solve found.
#[derive(Clone, Copy, Debug, PartialEq, Eq)]
pub struct Solved {
    /// The lowest index, from 0, at which the diagonal of A is zero (-0.0 too), if there is one. A unit diagonal has
    /// none, and where α, m or n is zero the diagonal is not looked at.
    pub zero: Option<i32>,
}

/// B ← α·op(A)⁻¹·B (side left, A of order m) or B ← α·B·op(A)⁻¹ (side right, A of order n). A is triangular, only its
/// triangle `uplo` is read; B is m by n. A zero on the diagonal is not refused: the quotients stand, and [`Solved`]
/// names the lowest one.
///
/// # Example
///
/// ```
/// use thamrunlek::{trsm, Blocks, Diagonal::NonUnit, Side::Left, Transpose::No, Triangle::Lower};
///
/// let a = [2.0, 1.0, 0.0, 0.0];
/// let mut b = [4.0, 3.0];
/// let solved = trsm(Left, Lower, No, NonUnit, 2, 1, 1.0, &a, 2, &mut b, 2, Blocks::default())?;
/// assert_eq!(b, [2.0, f64::INFINITY]);
/// assert_eq!(solved.zero, Some(1));
/// # Ok::<(), thamrunlek::Refusal>(())
/// ```
pub fn trsm(
    side: Side, uplo: Triangle, transa: Transpose, diag: Diagonal, m: i32, n: i32, alpha: f64, a: &[f64], lda: i32,
    b: &mut [f64], ldb: i32, blocks: Blocks,
) -> Result<Solved, Refusal> {
    let Blocks { width, size } = blocks;
    let (side, uplo, transa, diag) = (side.code(), uplo.code(), transa.code(), diag.code());
    let raw::SolveEnd { number, zero } = raw::trsm(side, uplo, transa, diag, m, n, alpha, a, lda, b, ldb, width, size);
    Refusal::of(Routine::Trsm, number)?;
    Ok(Solved { zero: index(zero) })
}

/// An index that the library hands back, or nothing for -1.
fn index(number: i32) -> Option<i32> {
    (number >= 0).then_some(number)
}

// The README's code in Rust is tested with the examples of this crate.
#[cfg(doctest)]
#[doc = include_str!("../../../README.md")]
struct Readme;

#[cfg(test)]
mod tests {
    use super::*;

    #[test]
    fn options_are_the_letters_of_the_blas() {
        assert_eq!([Side::Left.code(), Side::Right.code()], [76, 82]);
        assert_eq!([Triangle::Lower.code(), Triangle::Upper.code()], [76, 85]);
        assert_eq!([Transpose::No.code(), Transpose::Yes.code()], [78, 84]);
        assert_eq!([Diagonal::Unit.code(), Diagonal::NonUnit.code()], [85, 78]);
    }

    #[test]
    fn a_refusal_names_its_argument() {
        let text = |routine, number| Refusal::of(routine, number).unwrap_err().to_string();
        assert_eq!(text(Routine::Gemm, 1), "DGEMM: argument 1 (transa) is not a code that it takes");
        assert_eq!(text(Routine::Syrk, 4), "DSYRK: argument 4 (k) is negative");
        assert_eq!(text(Routine::Trsm, 11), "DTRSM: argument 11 (ldb) is below 1 or below the rows of its matrix");
        assert_eq!(text(Routine::Symm, 11), "DSYMM: argument 11 (c) is shorter than its matrix needs");
        assert_eq!(text(Routine::Gemm, 30), "DGEMM: the strip width or block size is not 0 to 64");
        assert_eq!(text(Routine::Gemm, 42), "DGEMM: the number of items is not 0 to 1000");
        let stride = "DGEMM: a stride is negative, or that of C is below what its matrix needs";
        assert_eq!(text(Routine::Gemm, 43), stride);
        let pack = "DGEMM: the pack area is shorter than the m * k elements that are copied";
        assert_eq!(text(Routine::Gemm, 44), pack);
    }
}
