//! The C functions of the library, with a slice for each pointer and length.
//!
//! A routine takes any numbers at all and gives 0, or the number of the first bad argument; refused, it writes nothing.
//! [`Refusal`](crate::Refusal) says what a number means. Codes are character numbers, as `'N' as i32`. A run of a call
//! sheet takes any words, too. Its number is in its [`RunEnd`], that of a solve in its [`SolveEnd`], and that of GEMM
//! of many items in its [`ManyEnd`]. An integer solution gives -1 too, if there is none.
//!
//! The library reads and writes nothing outside the slices; that is part of what is proved of it. It keeps no
//! pointer, so these functions are safe on any arguments.

#![allow(unsafe_code)]

use std::ffi::{c_char, CStr};

// The functions themselves, as include/thamrunlek.h describes them.
#[allow(missing_docs)]
extern "C" {
    pub fn tl_dgemm(
        transa: i32, transb: i32, m: i32, n: i32, k: i32, alpha: f64, a: *const f64, a_len: usize, lda: i32,
        b: *const f64, b_len: usize, ldb: i32, beta: f64, c: *mut f64, c_len: usize, ldc: i32, w: i32, r: i32,
    ) -> i32;
    pub fn tl_dgemm_many(
        transb: i32, m: i32, n: i32, k: i32, alpha: f64, a: *const f64, a_len: usize, lda: i32, b: *const f64,
        b_len: usize, ldb: i32, b_stride: i32, beta: f64, c: *mut f64, c_len: usize, ldc: i32, c_stride: i32,
        items: i32, pack: *mut f64, pack_len: usize, w: i32, r: i32,
    ) -> ManyEnd;
    pub fn tl_dsymm(
        side: i32, uplo: i32, m: i32, n: i32, alpha: f64, a: *const f64, a_len: usize, lda: i32, b: *const f64,
        b_len: usize, ldb: i32, beta: f64, c: *mut f64, c_len: usize, ldc: i32, w: i32, r: i32,
    ) -> i32;
    pub fn tl_dsyrk(
        uplo: i32, trans: i32, n: i32, k: i32, alpha: f64, a: *const f64, a_len: usize, lda: i32, beta: f64,
        c: *mut f64, c_len: usize, ldc: i32, w: i32, r: i32,
    ) -> i32;
    pub fn tl_dsyr2k(
        uplo: i32, trans: i32, n: i32, k: i32, alpha: f64, a: *const f64, a_len: usize, lda: i32, b: *const f64,
        b_len: usize, ldb: i32, beta: f64, c: *mut f64, c_len: usize, ldc: i32, w: i32, r: i32,
    ) -> i32;
    pub fn tl_dtrmm(
        side: i32, uplo: i32, transa: i32, diag: i32, m: i32, n: i32, alpha: f64, a: *const f64, a_len: usize,
        lda: i32, b: *mut f64, b_len: usize, ldb: i32, w: i32, r: i32,
    ) -> i32;
    pub fn tl_dtrsm(
        side: i32, uplo: i32, transa: i32, diag: i32, m: i32, n: i32, alpha: f64, a: *const f64, a_len: usize,
        lda: i32, b: *mut f64, b_len: usize, ldb: i32, w: i32, r: i32,
    ) -> SolveEnd;
    pub fn tl_isolve(
        uplo: i32, n: i32, a: *const i16, a_len: usize, b: *const i16, b_len: usize, x: *mut i16, x_len: usize,
    ) -> i32;
    pub fn tl_run(
        sheet: *const i32, sheet_len: usize, scalars: *const f64, scalars_len: usize, x: *mut f64, x_len: usize,
        y: *mut f64, y_len: usize, z: *mut f64, z_len: usize, answers: *mut i32, answers_len: usize, p: i32, s: i32,
        budget: u32,
    ) -> RunEnd;
    pub fn tl_cpu() -> *const c_char;
}

/// [`crate::gemm`] on raw codes and block sizes.
#[inline]
pub fn gemm(
    transa: i32, transb: i32, m: i32, n: i32, k: i32, alpha: f64, a: &[f64], lda: i32, b: &[f64], ldb: i32, beta: f64,
    c: &mut [f64], ldc: i32, w: i32, r: i32,
) -> i32 {
    let (a, a_len) = (a.as_ptr(), a.len());
    let (b, b_len) = (b.as_ptr(), b.len());
    let (c, c_len) = (c.as_mut_ptr(), c.len());
    unsafe { tl_dgemm(transa, transb, m, n, k, alpha, a, a_len, lda, b, b_len, ldb, beta, c, c_len, ldc, w, r) }
}

/// What GEMM of many items hands back.
#[repr(C)]
#[derive(Clone, Copy, Debug, PartialEq, Eq)]
pub struct ManyEnd {
    /// 0, or the number of the first bad argument.
    pub number: i32,
    /// The elements of A that were copied into the pack area.
    pub copied: u64,
}

/// [`crate::gemm_many`] on a raw code and block sizes.
#[inline]
pub fn gemm_many(
    transb: i32, m: i32, n: i32, k: i32, alpha: f64, a: &[f64], lda: i32, b: &[f64], ldb: i32, b_stride: i32,
    beta: f64, c: &mut [f64], ldc: i32, c_stride: i32, items: i32, pack: &mut [f64], w: i32, r: i32,
) -> ManyEnd {
    let (a, a_len) = (a.as_ptr(), a.len());
    let (b, b_len) = (b.as_ptr(), b.len());
    let (c, c_len) = (c.as_mut_ptr(), c.len());
    let (pack, pack_len) = (pack.as_mut_ptr(), pack.len());
    unsafe {
        tl_dgemm_many(
            transb, m, n, k, alpha, a, a_len, lda, b, b_len, ldb, b_stride, beta, c, c_len, ldc, c_stride, items, pack,
            pack_len, w, r,
        )
    }
}

/// [`crate::symm`] on raw codes and block sizes.
#[inline]
pub fn symm(
    side: i32, uplo: i32, m: i32, n: i32, alpha: f64, a: &[f64], lda: i32, b: &[f64], ldb: i32, beta: f64,
    c: &mut [f64], ldc: i32, w: i32, r: i32,
) -> i32 {
    let (a, a_len) = (a.as_ptr(), a.len());
    let (b, b_len) = (b.as_ptr(), b.len());
    let (c, c_len) = (c.as_mut_ptr(), c.len());
    unsafe { tl_dsymm(side, uplo, m, n, alpha, a, a_len, lda, b, b_len, ldb, beta, c, c_len, ldc, w, r) }
}

/// [`crate::syrk`] on raw codes and block sizes.
#[inline]
pub fn syrk(
    uplo: i32, trans: i32, n: i32, k: i32, alpha: f64, a: &[f64], lda: i32, beta: f64, c: &mut [f64], ldc: i32, w: i32,
    r: i32,
) -> i32 {
    let (a, a_len) = (a.as_ptr(), a.len());
    let (c, c_len) = (c.as_mut_ptr(), c.len());
    unsafe { tl_dsyrk(uplo, trans, n, k, alpha, a, a_len, lda, beta, c, c_len, ldc, w, r) }
}

/// [`crate::syr2k`] on raw codes and block sizes.
#[inline]
pub fn syr2k(
    uplo: i32, trans: i32, n: i32, k: i32, alpha: f64, a: &[f64], lda: i32, b: &[f64], ldb: i32, beta: f64,
    c: &mut [f64], ldc: i32, w: i32, r: i32,
) -> i32 {
    let (a, a_len) = (a.as_ptr(), a.len());
    let (b, b_len) = (b.as_ptr(), b.len());
    let (c, c_len) = (c.as_mut_ptr(), c.len());
    unsafe { tl_dsyr2k(uplo, trans, n, k, alpha, a, a_len, lda, b, b_len, ldb, beta, c, c_len, ldc, w, r) }
}

/// [`crate::trmm`] on raw codes and block sizes.
#[inline]
pub fn trmm(
    side: i32, uplo: i32, transa: i32, diag: i32, m: i32, n: i32, alpha: f64, a: &[f64], lda: i32, b: &mut [f64],
    ldb: i32, w: i32, r: i32,
) -> i32 {
    let (a, a_len) = (a.as_ptr(), a.len());
    let (b, b_len) = (b.as_mut_ptr(), b.len());
    unsafe { tl_dtrmm(side, uplo, transa, diag, m, n, alpha, a, a_len, lda, b, b_len, ldb, w, r) }
}

/// What a solve hands back.
#[repr(C)]
#[derive(Clone, Copy, Debug, PartialEq, Eq)]
pub struct SolveEnd {
    /// 0, or the number of the first bad argument.
    pub number: i32,
    /// The lowest index at which the diagonal of A is zero, or -1.
    pub zero: i32,
}

/// [`crate::trsm`] on raw codes and block sizes.
#[inline]
pub fn trsm(
    side: i32, uplo: i32, transa: i32, diag: i32, m: i32, n: i32, alpha: f64, a: &[f64], lda: i32, b: &mut [f64],
    ldb: i32, w: i32, r: i32,
) -> SolveEnd {
    let (a, a_len) = (a.as_ptr(), a.len());
    let (b, b_len) = (b.as_mut_ptr(), b.len());
    unsafe { tl_dtrsm(side, uplo, transa, diag, m, n, alpha, a, a_len, lda, b, b_len, ldb, w, r) }
}

/// [`crate::isolve`] on a raw code: 0 if X is written, -1 if there is none, or the number of a refusal.
#[inline]
pub fn isolve(uplo: i32, n: i32, a: &[i16], b: &[i16], x: &mut [i16]) -> i32 {
    let (a, a_len) = (a.as_ptr(), a.len());
    let (b, b_len) = (b.as_ptr(), b.len());
    let (x, x_len) = (x.as_mut_ptr(), x.len());
    unsafe { tl_isolve(uplo, n, a, a_len, b, b_len, x, x_len) }
}

/// What a run of a call sheet hands back.
#[repr(C)]
#[derive(Clone, Copy, Debug, PartialEq, Eq)]
pub struct RunEnd {
    /// 0, or the number of a refusal: 34, 35 or 36.
    pub number: i32,
    /// The new cursor's record; of a refused run, the one that it was given.
    pub p: i32,
    /// The new cursor's strip; of a refused run, the one that it was given.
    pub s: i32,
    /// The steps made.
    pub steps: u32,
    /// The first record whose solve had a zero on the diagonal, or -1.
    pub zero: i32,
}

/// [`crate::run`] with the cursor (p, s).
#[inline]
pub fn run(
    sheet: &[i32], scalars: &[f64], x: &mut [f64], y: &mut [f64], z: &mut [f64], answers: &mut [i32], p: i32, s: i32,
    budget: u32,
) -> RunEnd {
    let (sheet, sheet_len) = (sheet.as_ptr(), sheet.len());
    let (scalars, scalars_len) = (scalars.as_ptr(), scalars.len());
    let (x, x_len) = (x.as_mut_ptr(), x.len());
    let (y, y_len) = (y.as_mut_ptr(), y.len());
    let (z, z_len) = (z.as_mut_ptr(), z.len());
    let (answers, answers_len) = (answers.as_mut_ptr(), answers.len());
    unsafe {
        tl_run(sheet, sheet_len, scalars, scalars_len, x, x_len, y, y_len, z, z_len, answers, answers_len, p, s, budget)
    }
}

/// [`crate::cpu`].
pub fn cpu() -> &'static str {
    unsafe { CStr::from_ptr(tl_cpu()) }.to_str().expect("a name in ASCII")
}
