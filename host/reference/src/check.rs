//! The argument check: the number of the first bad argument.

use crate::{is, needed, Call, Routine};

fn bad_trans(code: i32) -> bool {
    !(is(code, 'N') || is(code, 'T') || is(code, 'C'))
}

fn bad_side(code: i32) -> bool {
    !(is(code, 'L') || is(code, 'R'))
}

pub(crate) fn bad_uplo(code: i32) -> bool {
    !(is(code, 'L') || is(code, 'U'))
}

fn bad_diag(code: i32) -> bool {
    !(is(code, 'U') || is(code, 'N'))
}

fn bad_ld(ld: i32, rows: i32) -> bool {
    ld < rows.max(1)
}

pub(crate) fn bad_width(w: i32) -> bool {
    !(0..=64).contains(&w)
}

pub(crate) fn short(len: usize, ld: i32, (rows, cols): (i32, i32)) -> bool {
    len < needed(ld, rows, cols)
}

/// The number of the first bad argument of a call whose arrays have these lengths, or 0: 30, then codes, sizes and
/// leading dimensions by their places, then array lengths by their places. For TRMM and TRSM `out_len` is the
/// length of B and `b_len` is not looked at.
pub fn check(call: &Call, a_len: usize, b_len: usize, out_len: usize) -> i32 {
    if bad_width(call.w) || bad_width(call.r) {
        return 30;
    }
    match call.routine {
        Routine::Gemm => gemm(call, a_len, b_len, out_len),
        Routine::Symm => symm(call, a_len, b_len, out_len),
        Routine::Syrk => syrk(call, a_len, out_len),
        Routine::Syr2k => syr2k(call, a_len, b_len, out_len),
        Routine::Trmm | Routine::Trsm => trmm_or_trsm(call, a_len, out_len),
    }
}

/// The codes, sizes and leading dimensions of GEMM.
pub(crate) fn gemm_places(call: &Call) -> i32 {
    if bad_trans(call.transa) {
        return 1;
    }
    if bad_trans(call.transb) {
        return 2;
    }
    if call.m < 0 {
        return 3;
    }
    if call.n < 0 {
        return 4;
    }
    if call.k < 0 {
        return 5;
    }
    if bad_ld(call.lda, call.stored_a().0) {
        return 8;
    }
    if bad_ld(call.ldb, call.stored_b().0) {
        return 10;
    }
    if bad_ld(call.ldc, call.m) {
        return 13;
    }
    0
}

fn gemm(call: &Call, a_len: usize, b_len: usize, c_len: usize) -> i32 {
    let number = gemm_places(call);
    if number != 0 {
        return number;
    }
    let inputs_tested = call.m != 0 && call.n != 0 && call.alpha != 0.0 && call.k != 0;
    let output_tested = call.m != 0 && call.n != 0;
    if inputs_tested && short(a_len, call.lda, call.stored_a()) {
        return 7;
    }
    if inputs_tested && short(b_len, call.ldb, call.stored_b()) {
        return 9;
    }
    if output_tested && short(c_len, call.ldc, (call.m, call.n)) {
        return 12;
    }
    0
}

fn symm(call: &Call, a_len: usize, b_len: usize, c_len: usize) -> i32 {
    if bad_side(call.side) {
        return 1;
    }
    if bad_uplo(call.uplo) {
        return 2;
    }
    if call.m < 0 {
        return 3;
    }
    if call.n < 0 {
        return 4;
    }
    if bad_ld(call.lda, call.stored_a().0) {
        return 7;
    }
    if bad_ld(call.ldb, call.m) {
        return 9;
    }
    if bad_ld(call.ldc, call.m) {
        return 12;
    }
    let inputs_tested = call.m != 0 && call.n != 0 && call.alpha != 0.0;
    let output_tested = call.m != 0 && call.n != 0;
    if inputs_tested && short(a_len, call.lda, call.stored_a()) {
        return 6;
    }
    if inputs_tested && short(b_len, call.ldb, (call.m, call.n)) {
        return 8;
    }
    if output_tested && short(c_len, call.ldc, (call.m, call.n)) {
        return 11;
    }
    0
}

fn syrk(call: &Call, a_len: usize, c_len: usize) -> i32 {
    if bad_uplo(call.uplo) {
        return 1;
    }
    if bad_trans(call.transa) {
        return 2;
    }
    if call.n < 0 {
        return 3;
    }
    if call.k < 0 {
        return 4;
    }
    if bad_ld(call.lda, call.stored_a().0) {
        return 7;
    }
    if bad_ld(call.ldc, call.n) {
        return 10;
    }
    let inputs_tested = call.n != 0 && call.alpha != 0.0 && call.k != 0;
    let output_tested = call.n != 0;
    if inputs_tested && short(a_len, call.lda, call.stored_a()) {
        return 6;
    }
    if output_tested && short(c_len, call.ldc, (call.n, call.n)) {
        return 9;
    }
    0
}

fn syr2k(call: &Call, a_len: usize, b_len: usize, c_len: usize) -> i32 {
    if bad_uplo(call.uplo) {
        return 1;
    }
    if bad_trans(call.transa) {
        return 2;
    }
    if call.n < 0 {
        return 3;
    }
    if call.k < 0 {
        return 4;
    }
    if bad_ld(call.lda, call.stored_a().0) {
        return 7;
    }
    if bad_ld(call.ldb, call.stored_b().0) {
        return 9;
    }
    if bad_ld(call.ldc, call.n) {
        return 12;
    }
    let inputs_tested = call.n != 0 && call.alpha != 0.0 && call.k != 0;
    let output_tested = call.n != 0;
    if inputs_tested && short(a_len, call.lda, call.stored_a()) {
        return 6;
    }
    if inputs_tested && short(b_len, call.ldb, call.stored_b()) {
        return 8;
    }
    if output_tested && short(c_len, call.ldc, (call.n, call.n)) {
        return 11;
    }
    0
}

fn trmm_or_trsm(call: &Call, a_len: usize, b_len: usize) -> i32 {
    if bad_side(call.side) {
        return 1;
    }
    if bad_uplo(call.uplo) {
        return 2;
    }
    if bad_trans(call.transa) {
        return 3;
    }
    if bad_diag(call.diag) {
        return 4;
    }
    if call.m < 0 {
        return 5;
    }
    if call.n < 0 {
        return 6;
    }
    if bad_ld(call.lda, call.stored_a().0) {
        return 9;
    }
    if bad_ld(call.ldb, call.m) {
        return 11;
    }
    let inputs_tested = call.m != 0 && call.n != 0 && call.alpha != 0.0;
    let output_tested = call.m != 0 && call.n != 0;
    if inputs_tested && short(a_len, call.lda, call.stored_a()) {
        return 8;
    }
    if output_tested && short(b_len, call.ldb, (call.m, call.n)) {
        return 10;
    }
    0
}
