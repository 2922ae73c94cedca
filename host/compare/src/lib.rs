//! Compares two implementations of the routines, of GEMM of many items, of integer solutions, or of the runner of call
//! sheets, bit for bit on made-up calls.
//!
//! A [`Case`] is a call with two sets of arrays, one for each implementation. They agree where the call reads and hold
//! different fillers (NaN, infinities, noise) where it does not: padding, the other triangle, a unit diagonal, the old
//! output with β zero, the inputs with α zero. So an implementation that looks at what it must not is told apart too.

#![forbid(unsafe_code)]
#![deny(missing_docs)]

pub mod calls;
mod cases;
pub mod isolve;
pub mod many;
mod random;
mod runs;
mod saved;
mod sheets;

pub use cases::{accepted, Case};
pub use random::{cases, seed, some_case, two_of, Each, Random};
pub use runs::{compare_runs, differ, library_run, Runner};
pub use saved::Saved;
pub use sheets::{long, of_call, sheet, solves, SheetCase, UNANSWERED};

use reference::{Call, Done, Routine};
use std::fmt::Debug;

/// An implementation: arguments, A, B and the output, which is C, or B for TRMM and TRSM.
pub type Implementation<'f> = &'f dyn Fn(&Call, &[f64], &[f64], &mut [f64]) -> Done;

/// The library.
pub fn library(call: &Call, a: &[f64], b: &[f64], out: &mut [f64]) -> Done {
    use thamrunlek::raw::{self, SolveEnd};
    let Call { side, uplo, transa, transb, diag, m, n, k, alpha, beta, lda, ldb, ldc, w, r, .. } = *call;
    let number = match call.routine {
        Routine::Gemm => raw::gemm(transa, transb, m, n, k, alpha, a, lda, b, ldb, beta, out, ldc, w, r),
        Routine::Symm => raw::symm(side, uplo, m, n, alpha, a, lda, b, ldb, beta, out, ldc, w, r),
        Routine::Syrk => raw::syrk(uplo, transa, n, k, alpha, a, lda, beta, out, ldc, w, r),
        Routine::Syr2k => raw::syr2k(uplo, transa, n, k, alpha, a, lda, b, ldb, beta, out, ldc, w, r),
        Routine::Trmm => raw::trmm(side, uplo, transa, diag, m, n, alpha, a, lda, out, ldb, w, r),
        Routine::Trsm => {
            let SolveEnd { number, zero } = raw::trsm(side, uplo, transa, diag, m, n, alpha, a, lda, out, ldb, w, r);
            return Done { number, zero };
        }
    };
    Done::of(number)
}

/// Entry (i, j) lies in triangle `uplo`, diagonal included.
fn in_triangle(call: &Call, i: usize, j: usize) -> bool {
    i == j || (i < j) == call.upper()
}

/// The call writes entry (i, j) of its output.
fn writes(call: &Call, i: usize, j: usize) -> bool {
    let (rows, cols) = call.shape_of_output();
    let part = call.routine.has_m() || in_triangle(call, i, j);
    (i as i64) < rows as i64 && (j as i64) < cols as i64 && part
}

/// The same bits.
fn equal(x: f64, y: f64) -> bool {
    x.to_bits() == y.to_bits()
}

/// The same bits, or two NaNs.
fn equal_or_nans(x: f64, y: f64) -> bool {
    equal(x, y) || (x.is_nan() && y.is_nan())
}

/// An array after a call has the right elements where it is written (two NaNs are equal), and elsewhere what it had; an
/// error says which element it has not.
fn as_expected(
    name: &str, before: &[f64], after: &[f64], right: &[f64], written: impl Fn(usize) -> bool,
) -> Result<(), String> {
    for p in 0..after.len() {
        let (before, after, right) = (before[p], after[p], right[p]);
        if written(p) && !equal_or_nans(after, right) {
            return Err(format!("element {p} of {name} is {after:e} and not {right:e}"));
        }
        if !written(p) && !equal(before, after) {
            return Err(format!("element {p} of {name} was {before:e} and is {after:e}"));
        }
    }
    Ok(())
}

/// Makes the call with both implementations. Ok has what they hand back; an error says in what they differ: in that, in
/// an element that the call writes (two NaNs are equal), or in one that the implementation under test was not to touch.
pub fn compare(case: &Case, tested: Implementation, expected: Implementation) -> Result<Done, String> {
    let Case { call, a, b, out } = case;
    let (a_after, b_after, mut out_after) = (a[0].clone(), b[0].clone(), out[0].clone());
    let done = tested(call, &a_after, &b_after, &mut out_after);
    let mut right = out[1].clone();
    let right_done = expected(call, &a[1], &b[1], &mut right);

    if done != right_done {
        return Err(format!("it hands back {done:?} and not {right_done:?}"));
    }
    as_expected("the input A", &a[0], &a_after, &a[0], |_| false)?;
    as_expected("the input B", &b[0], &b_after, &b[0], |_| false)?;
    let ld = call.ld_of_output().max(1) as usize;
    as_expected("the output", &out[0], &out_after, &right, |p| done.number == 0 && writes(call, p % ld, p / ld))?;
    Ok(done)
}

/// Panics with what is needed to make case number `index` of a test again.
fn failed(difference: &str, test: &str, index: u64, call: &dyn Debug, lengths: &[usize]) -> ! {
    let seed = seed();
    panic!("{difference}\nseed {seed} (THAMRUNLEK_SEED), test {test}, case {index}\n{call:?}\nlengths {lengths:?}")
}

/// Compares the library with the reference on case number `index` of a test, made by `make` from a generator of its
/// own. On a difference it panics with what is needed to make the case again.
pub fn hold(test: &str, index: u64, make: impl FnOnce(&mut Random) -> Case) -> Done {
    let case = make(&mut Random::of(test, index));
    compare(&case, &library, &reference::direct).unwrap_or_else(|difference| {
        let lengths = [&case.a, &case.b, &case.out].map(|pair| pair[0].len());
        failed(&difference, test, index, &case.call, &lengths)
    })
}
