//! The Fortran interface. Every argument comes as a pointer; codes are the first character of a text, whose length
//! comes behind the arguments and is not looked at.

use crate::calls;
use thamrunlek::Routine;

/// A code, of which the first character counts.
pub type Code = *const u8;
/// A size or a leading dimension.
pub type Size = *const i32;
/// A scalar.
pub type Scalar = *const f64;
/// An array that is read.
pub type Input = *const f64;
/// An array that is written.
pub type Output = *mut f64;

extern "C" {
    fn xerbla_(name: *const u8, number: *const i32, name_len: usize);
}

/// Hands the number of a bad argument to `xerbla_`, with the routine's name in six characters.
pub(crate) unsafe fn report(routine: Routine, number: i32) {
    if number != 0 {
        let name = format!("{:6}", routine.name());
        xerbla_(name.as_ptr(), &number, name.len());
    }
}

/// The character number of a code.
unsafe fn code(code: Code) -> i32 {
    *code as i32
}

/// C ← α·op(A)·op(B) + β·C.
#[no_mangle]
pub unsafe extern "C" fn dgemm_(
    transa: Code, transb: Code, m: Size, n: Size, k: Size, alpha: Scalar, a: Input, lda: Size, b: Input, ldb: Size,
    beta: Scalar, c: Output, ldc: Size,
) {
    let (transa, transb) = (code(transa), code(transb));
    report(Routine::Gemm, calls::gemm(transa, transb, *m, *n, *k, *alpha, a, *lda, b, *ldb, *beta, c, *ldc));
}

/// C ← α·A·B + β·C or C ← α·B·A + β·C, A symmetric.
#[no_mangle]
pub unsafe extern "C" fn dsymm_(
    side: Code, uplo: Code, m: Size, n: Size, alpha: Scalar, a: Input, lda: Size, b: Input, ldb: Size, beta: Scalar,
    c: Output, ldc: Size,
) {
    report(Routine::Symm, calls::symm(code(side), code(uplo), *m, *n, *alpha, a, *lda, b, *ldb, *beta, c, *ldc));
}

/// C ← α·op(A)·op(A)ᵀ + β·C, one triangle.
#[no_mangle]
pub unsafe extern "C" fn dsyrk_(
    uplo: Code, trans: Code, n: Size, k: Size, alpha: Scalar, a: Input, lda: Size, beta: Scalar, c: Output, ldc: Size,
) {
    report(Routine::Syrk, calls::syrk(code(uplo), code(trans), *n, *k, *alpha, a, *lda, *beta, c, *ldc));
}

/// C ← α·op(A)·op(B)ᵀ + α·op(B)·op(A)ᵀ + β·C, one triangle.
#[no_mangle]
pub unsafe extern "C" fn dsyr2k_(
    uplo: Code, trans: Code, n: Size, k: Size, alpha: Scalar, a: Input, lda: Size, b: Input, ldb: Size, beta: Scalar,
    c: Output, ldc: Size,
) {
    report(Routine::Syr2k, calls::syr2k(code(uplo), code(trans), *n, *k, *alpha, a, *lda, b, *ldb, *beta, c, *ldc));
}

/// B ← α·op(A)·B or B ← α·B·op(A), A triangular.
#[no_mangle]
pub unsafe extern "C" fn dtrmm_(
    side: Code, uplo: Code, transa: Code, diag: Code, m: Size, n: Size, alpha: Scalar, a: Input, lda: Size, b: Output,
    ldb: Size,
) {
    let (side, uplo, transa, diag) = (code(side), code(uplo), code(transa), code(diag));
    report(Routine::Trmm, calls::trmm(side, uplo, transa, diag, *m, *n, *alpha, a, *lda, b, *ldb));
}

/// B ← α·op(A)⁻¹·B or B ← α·B·op(A)⁻¹, A triangular.
#[no_mangle]
pub unsafe extern "C" fn dtrsm_(
    side: Code, uplo: Code, transa: Code, diag: Code, m: Size, n: Size, alpha: Scalar, a: Input, lda: Size, b: Output,
    ldb: Size,
) {
    let (side, uplo, transa, diag) = (code(side), code(uplo), code(transa), code(diag));
    report(Routine::Trsm, calls::trsm(side, uplo, transa, diag, *m, *n, *alpha, a, *lda, b, *ldb));
}
