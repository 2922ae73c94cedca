//! The proved calls on pointers, with the arguments of the BLAS. Each gives 0 or the number of a bad argument; a zero on
//! the diagonal that a solve names has no place in the BLAS.

use crate::blocks::blocks;
use std::ptr::NonNull;
use thamrunlek::{raw, Blocks};

/// A matrix as the proved calls take it: where it starts, how many elements it takes up, and its leading dimension.
struct Matrix {
    start: *mut f64,
    len: usize,
    ld: i32,
}

impl Matrix {
    /// The matrix of so many rows and columns. A matrix that has no entries, or will be refused, takes up no elements;
    /// neither does a null pointer.
    fn new(start: *const f64, ld: i32, (rows, cols): (i32, i32)) -> Matrix {
        let len = if rows > 0 && cols > 0 && ld > 0 && !start.is_null() {
            (cols as usize - 1) * ld as usize + rows as usize
        } else {
            0
        };
        let start = if start.is_null() { NonNull::dangling().as_ptr() } else { start.cast_mut() };
        Matrix { start, len, ld }
    }
}

/// The code is this letter, in upper or lower case.
fn is(code: i32, letter: u8) -> bool {
    code == letter as i32 || code == letter.to_ascii_lowercase() as i32
}

/// How a factor of so many rows and columns is stored.
fn stored(trans: i32, rows: i32, cols: i32) -> (i32, i32) {
    if is(trans, b'N') {
        (rows, cols)
    } else {
        (cols, rows)
    }
}

/// The symmetric or triangular matrix beside an m by n matrix.
fn square(side: i32, m: i32, n: i32) -> (i32, i32) {
    let order = if is(side, b'L') { m } else { n };
    (order, order)
}

pub unsafe fn gemm(
    transa: i32, transb: i32, m: i32, n: i32, k: i32, alpha: f64, a: *const f64, lda: i32, b: *const f64, ldb: i32,
    beta: f64, c: *mut f64, ldc: i32,
) -> i32 {
    let a = Matrix::new(a, lda, stored(transa, m, k));
    let b = Matrix::new(b, ldb, stored(transb, k, n));
    let c = Matrix::new(c, ldc, (m, n));
    let Blocks { width, size } = blocks();
    raw::tl_dgemm(
        transa, transb, m, n, k, alpha, a.start, a.len, a.ld, b.start, b.len, b.ld, beta, c.start, c.len, c.ld, width,
        size,
    )
}

pub unsafe fn symm(
    side: i32, uplo: i32, m: i32, n: i32, alpha: f64, a: *const f64, lda: i32, b: *const f64, ldb: i32, beta: f64,
    c: *mut f64, ldc: i32,
) -> i32 {
    let a = Matrix::new(a, lda, square(side, m, n));
    let b = Matrix::new(b, ldb, (m, n));
    let c = Matrix::new(c, ldc, (m, n));
    let Blocks { width, size } = blocks();
    raw::tl_dsymm(
        side, uplo, m, n, alpha, a.start, a.len, a.ld, b.start, b.len, b.ld, beta, c.start, c.len, c.ld, width, size,
    )
}

pub unsafe fn syrk(
    uplo: i32, trans: i32, n: i32, k: i32, alpha: f64, a: *const f64, lda: i32, beta: f64, c: *mut f64, ldc: i32,
) -> i32 {
    let a = Matrix::new(a, lda, stored(trans, n, k));
    let c = Matrix::new(c, ldc, (n, n));
    let Blocks { width, size } = blocks();
    raw::tl_dsyrk(uplo, trans, n, k, alpha, a.start, a.len, a.ld, beta, c.start, c.len, c.ld, width, size)
}

pub unsafe fn syr2k(
    uplo: i32, trans: i32, n: i32, k: i32, alpha: f64, a: *const f64, lda: i32, b: *const f64, ldb: i32, beta: f64,
    c: *mut f64, ldc: i32,
) -> i32 {
    let a = Matrix::new(a, lda, stored(trans, n, k));
    let b = Matrix::new(b, ldb, stored(trans, n, k));
    let c = Matrix::new(c, ldc, (n, n));
    let Blocks { width, size } = blocks();
    raw::tl_dsyr2k(
        uplo, trans, n, k, alpha, a.start, a.len, a.ld, b.start, b.len, b.ld, beta, c.start, c.len, c.ld, width, size,
    )
}

pub unsafe fn trmm(
    side: i32, uplo: i32, transa: i32, diag: i32, m: i32, n: i32, alpha: f64, a: *const f64, lda: i32, b: *mut f64,
    ldb: i32,
) -> i32 {
    let a = Matrix::new(a, lda, square(side, m, n));
    let b = Matrix::new(b, ldb, (m, n));
    let Blocks { width, size } = blocks();
    raw::tl_dtrmm(side, uplo, transa, diag, m, n, alpha, a.start, a.len, a.ld, b.start, b.len, b.ld, width, size)
}

pub unsafe fn trsm(
    side: i32, uplo: i32, transa: i32, diag: i32, m: i32, n: i32, alpha: f64, a: *const f64, lda: i32, b: *mut f64,
    ldb: i32,
) -> i32 {
    let a = Matrix::new(a, lda, square(side, m, n));
    let b = Matrix::new(b, ldb, (m, n));
    let Blocks { width, size } = blocks();
    raw::tl_dtrsm(side, uplo, transa, diag, m, n, alpha, a.start, a.len, a.ld, b.start, b.len, b.ld, width, size).number
}
