//! The C interface, by rows or by columns, as netlib's CBLAS has it.
//!
//! A matrix stored by rows is its transpose stored by columns. So a call by rows is the call by columns in which the
//! factors change places, and left with right, lower with upper; its bits are those of that call.

use crate::{calls, fortran};
use std::ffi::{c_char, CString};
use std::sync::atomic::{AtomicI32, Ordering::Relaxed};
use thamrunlek::Routine;

const ROW_MAJOR: i32 = 101;
const COLUMN_MAJOR: i32 = 102;

/// The numbers of an option, each with its letter for a call by columns and for a call by rows.
type Letters = &'static [(i32, u8, u8)];

const TRANS: Letters = &[(111, b'N', b'N'), (112, b'T', b'T'), (113, b'C', b'C')];
const TRANS_OF_UPDATE: Letters = &[(111, b'N', b'T'), (112, b'T', b'N'), (113, b'C', b'N')];
const UPLO: Letters = &[(121, b'U', b'L'), (122, b'L', b'U')];
const DIAG: Letters = &[(131, b'N', b'N'), (132, b'U', b'U')];
const SIDE: Letters = &[(141, b'L', b'R'), (142, b'R', b'L')];

extern "C" {
    fn cblas_xerbla(number: i32, name: *const c_char, form: *const c_char, ...);
}

/// 1 while a bad argument of a call of the C interface is reported. netlib's handlers look at it under this name.
#[no_mangle]
#[allow(non_upper_case_globals)]
pub static CBLAS_CallFromC: AtomicI32 = AtomicI32::new(0);

/// 1 while a bad argument of a call by rows is reported: its number is then that of the call by columns. netlib's
/// handlers look at it under this name.
#[no_mangle]
#[allow(non_upper_case_globals)]
pub static RowMajorStrg: AtomicI32 = AtomicI32::new(0);

/// Lets a handler see that the call came through the C interface, and its layout.
fn reporting(layout: i32, handler: impl FnOnce()) {
    CBLAS_CallFromC.store(1, Relaxed);
    RowMajorStrg.store((layout == ROW_MAJOR) as i32, Relaxed);
    handler();
    RowMajorStrg.store(0, Relaxed);
    CBLAS_CallFromC.store(0, Relaxed);
}

/// Reports the number that the call by columns gave.
unsafe fn report(routine: Routine, layout: i32, number: i32) {
    if number != 0 {
        reporting(layout, || fortran::report(routine, number));
    }
}

/// The letters of a call's options; or nothing, if the layout (argument 1) or an option (from argument 2 on) is bad and
/// has been reported.
unsafe fn letters<const N: usize>(routine: Routine, layout: i32, options: [(Letters, i32); N]) -> Option<[i32; N]> {
    if layout != ROW_MAJOR && layout != COLUMN_MAJOR {
        refuse(routine, layout, 1, layout);
        return None;
    }
    let mut codes = [0; N];
    for (place, (letters, number)) in options.into_iter().enumerate() {
        let Some(&(_, by_columns, by_rows)) = letters.iter().find(|letter| letter.0 == number) else {
            refuse(routine, layout, place as i32 + 2, number);
            return None;
        };
        codes[place] = if layout == ROW_MAJOR { by_rows } else { by_columns } as i32;
    }
    Some(codes)
}

/// Hands a bad layout or option to `cblas_xerbla`.
unsafe fn refuse(routine: Routine, layout: i32, place: i32, number: i32) {
    let name = CString::new(format!("cblas_{}", routine.name().to_lowercase())).expect("a name without zeros");
    let form = c"Illegal setting, %d\n";
    reporting(layout, || cblas_xerbla(place, name.as_ptr(), form.as_ptr(), number));
}

/// Two sizes, in the order of the call by columns.
fn sizes(layout: i32, m: i32, n: i32) -> (i32, i32) {
    if layout == ROW_MAJOR {
        (n, m)
    } else {
        (m, n)
    }
}

/// C ← α·op(A)·op(B) + β·C.
#[no_mangle]
pub unsafe extern "C" fn cblas_dgemm(
    layout: i32, transa: i32, transb: i32, m: i32, n: i32, k: i32, alpha: f64, a: *const f64, lda: i32, b: *const f64,
    ldb: i32, beta: f64, c: *mut f64, ldc: i32,
) {
    let options = [(TRANS, transa), (TRANS, transb)];
    let Some([transa, transb]) = letters(Routine::Gemm, layout, options) else { return };
    let number = if layout == ROW_MAJOR {
        calls::gemm(transb, transa, n, m, k, alpha, b, ldb, a, lda, beta, c, ldc)
    } else {
        calls::gemm(transa, transb, m, n, k, alpha, a, lda, b, ldb, beta, c, ldc)
    };
    report(Routine::Gemm, layout, number);
}

/// C ← α·A·B + β·C or C ← α·B·A + β·C, A symmetric.
#[no_mangle]
pub unsafe extern "C" fn cblas_dsymm(
    layout: i32, side: i32, uplo: i32, m: i32, n: i32, alpha: f64, a: *const f64, lda: i32, b: *const f64, ldb: i32,
    beta: f64, c: *mut f64, ldc: i32,
) {
    let Some([side, uplo]) = letters(Routine::Symm, layout, [(SIDE, side), (UPLO, uplo)]) else { return };
    let (m, n) = sizes(layout, m, n);
    report(Routine::Symm, layout, calls::symm(side, uplo, m, n, alpha, a, lda, b, ldb, beta, c, ldc));
}

/// C ← α·op(A)·op(A)ᵀ + β·C, one triangle.
#[no_mangle]
pub unsafe extern "C" fn cblas_dsyrk(
    layout: i32, uplo: i32, trans: i32, n: i32, k: i32, alpha: f64, a: *const f64, lda: i32, beta: f64, c: *mut f64,
    ldc: i32,
) {
    let options = [(UPLO, uplo), (TRANS_OF_UPDATE, trans)];
    let Some([uplo, trans]) = letters(Routine::Syrk, layout, options) else { return };
    report(Routine::Syrk, layout, calls::syrk(uplo, trans, n, k, alpha, a, lda, beta, c, ldc));
}

/// C ← α·op(A)·op(B)ᵀ + α·op(B)·op(A)ᵀ + β·C, one triangle.
#[no_mangle]
pub unsafe extern "C" fn cblas_dsyr2k(
    layout: i32, uplo: i32, trans: i32, n: i32, k: i32, alpha: f64, a: *const f64, lda: i32, b: *const f64, ldb: i32,
    beta: f64, c: *mut f64, ldc: i32,
) {
    let options = [(UPLO, uplo), (TRANS_OF_UPDATE, trans)];
    let Some([uplo, trans]) = letters(Routine::Syr2k, layout, options) else { return };
    report(Routine::Syr2k, layout, calls::syr2k(uplo, trans, n, k, alpha, a, lda, b, ldb, beta, c, ldc));
}

/// B ← α·op(A)·B or B ← α·B·op(A), A triangular.
#[no_mangle]
pub unsafe extern "C" fn cblas_dtrmm(
    layout: i32, side: i32, uplo: i32, transa: i32, diag: i32, m: i32, n: i32, alpha: f64, a: *const f64, lda: i32,
    b: *mut f64, ldb: i32,
) {
    let options = [(SIDE, side), (UPLO, uplo), (TRANS, transa), (DIAG, diag)];
    let Some([side, uplo, transa, diag]) = letters(Routine::Trmm, layout, options) else { return };
    let (m, n) = sizes(layout, m, n);
    report(Routine::Trmm, layout, calls::trmm(side, uplo, transa, diag, m, n, alpha, a, lda, b, ldb));
}

/// B ← α·op(A)⁻¹·B or B ← α·B·op(A)⁻¹, A triangular.
#[no_mangle]
pub unsafe extern "C" fn cblas_dtrsm(
    layout: i32, side: i32, uplo: i32, transa: i32, diag: i32, m: i32, n: i32, alpha: f64, a: *const f64, lda: i32,
    b: *mut f64, ldb: i32,
) {
    let options = [(SIDE, side), (UPLO, uplo), (TRANS, transa), (DIAG, diag)];
    let Some([side, uplo, transa, diag]) = letters(Routine::Trsm, layout, options) else { return };
    let (m, n) = sizes(layout, m, n);
    report(Routine::Trsm, layout, calls::trsm(side, uplo, transa, diag, m, n, alpha, a, lda, b, ldb));
}
