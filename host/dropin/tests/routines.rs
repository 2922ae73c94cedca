//! Both interfaces give the bits of the reference and netlib's numbers, and a call by rows what the call by columns of
//! the same matrices gives.

use compare::{accepted, cases, compare, Implementation, Random};
use reference::{Call, Done, Routine, ROUTINES};
use std::cell::Cell;
use std::slice;
use thamrunlek_blas::{cblas::*, fortran::*};

thread_local! {
    static NUMBER: Cell<i32> = const { Cell::new(0) };
}

/// Takes the place of the library's `xerbla_`.
#[no_mangle]
unsafe extern "C" fn xerbla_(name: *const u8, number: *const i32, name_len: usize) {
    let name = String::from_utf8_lossy(slice::from_raw_parts(name, name_len)).into_owned();
    assert!(ROUTINES.iter().any(|routine| format!("{:6}", format!("D{routine:?}").to_uppercase()) == name), "{name:?}");
    NUMBER.set(*number);
}

/// Takes the place of the library's `cblas_xerbla`.
#[no_mangle]
extern "C" fn cblas_xerbla(number: i32) {
    NUMBER.set(-number);
}

/// The number of a bad argument of the last call, or 0; negative if it came by `cblas_xerbla`.
fn number() -> i32 {
    NUMBER.replace(0)
}

/// A call through the Fortran interface.
fn fortran(call: &Call, a: &[f64], b: &[f64], out: &mut [f64]) -> i32 {
    let Call { side, uplo, transa, transb, diag, m, n, k, alpha, beta, lda, ldb, ldc, .. } = call;
    let [side, uplo, transa, transb, diag] = [side, uplo, transa, transb, diag].map(|code| *code as u8);
    let (a, b, out) = (a.as_ptr(), b.as_ptr(), out.as_mut_ptr());
    unsafe {
        match call.routine {
            Routine::Gemm => dgemm_(&transa, &transb, m, n, k, alpha, a, lda, b, ldb, beta, out, ldc),
            Routine::Symm => dsymm_(&side, &uplo, m, n, alpha, a, lda, b, ldb, beta, out, ldc),
            Routine::Syrk => dsyrk_(&uplo, &transa, n, k, alpha, a, lda, beta, out, ldc),
            Routine::Syr2k => dsyr2k_(&uplo, &transa, n, k, alpha, a, lda, b, ldb, beta, out, ldc),
            Routine::Trmm => dtrmm_(&side, &uplo, &transa, &diag, m, n, alpha, a, lda, out, ldb),
            Routine::Trsm => dtrsm_(&side, &uplo, &transa, &diag, m, n, alpha, a, lda, out, ldb),
        }
    }
    number()
}

const COLUMN_MAJOR: i32 = 102;
const ROW_MAJOR: i32 = 101;

/// The number that the C interface has for a letter, or the code itself if it is none of them.
fn word(letters: &[(char, i32)], code: i32) -> i32 {
    let same = |letter: char| code == letter as i32 || code == letter.to_ascii_lowercase() as i32;
    letters.iter().find(|(letter, _)| same(*letter)).map_or(code, |(_, word)| *word)
}

/// A call through the C interface.
fn c(layout: i32, call: &Call, a: &[f64], b: &[f64], out: &mut [f64]) -> i32 {
    let Call { m, n, k, alpha, beta, lda, ldb, ldc, .. } = *call;
    let [transa, transb] = [call.transa, call.transb].map(|code| word(&[('N', 111), ('T', 112), ('C', 113)], code));
    let uplo = word(&[('U', 121), ('L', 122)], call.uplo);
    let diag = word(&[('N', 131), ('U', 132)], call.diag);
    let side = word(&[('L', 141), ('R', 142)], call.side);
    let (a, b, out) = (a.as_ptr(), b.as_ptr(), out.as_mut_ptr());
    unsafe {
        match call.routine {
            Routine::Gemm => cblas_dgemm(layout, transa, transb, m, n, k, alpha, a, lda, b, ldb, beta, out, ldc),
            Routine::Symm => cblas_dsymm(layout, side, uplo, m, n, alpha, a, lda, b, ldb, beta, out, ldc),
            Routine::Syrk => cblas_dsyrk(layout, uplo, transa, n, k, alpha, a, lda, beta, out, ldc),
            Routine::Syr2k => cblas_dsyr2k(layout, uplo, transa, n, k, alpha, a, lda, b, ldb, beta, out, ldc),
            Routine::Trmm => cblas_dtrmm(layout, side, uplo, transa, diag, m, n, alpha, a, lda, out, ldb),
            Routine::Trsm => cblas_dtrsm(layout, side, uplo, transa, diag, m, n, alpha, a, lda, out, ldb),
        }
    }
    number()
}

/// The number of the reference.
fn plain(call: &Call, a: &[f64], b: &[f64], out: &mut [f64]) -> i32 {
    reference::direct(call, a, b, out).number
}

#[test]
fn random_calls_have_the_bits_of_the_reference() {
    let of_fortran = |call: &Call, a: &[f64], b: &[f64], out: &mut [f64]| Done::of(fortran(call, a, b, out));
    let of_c = |call: &Call, a: &[f64], b: &[f64], out: &mut [f64]| Done::of(c(COLUMN_MAJOR, call, a, b, out));
    let expected = |call: &Call, a: &[f64], b: &[f64], out: &mut [f64]| Done::of(plain(call, a, b, out));
    for routine in ROUTINES {
        for index in cases(2_000) {
            let case = accepted(&mut Random::of("drop-in", index as u64), routine, |_| ());
            for tested in [&of_fortran as Implementation, &of_c] {
                assert_eq!(compare(&case, tested, &expected), Ok(Done::of(0)), "case {index}: {:?}", case.call);
            }
        }
    }
}

/// The call with the smallest leading dimensions for its matrices stored by columns or by rows.
fn tight(call: Call, by_rows: bool) -> Call {
    let ld = |(rows, cols): (i32, i32)| if by_rows { cols.max(1) } else { rows.max(1) };
    Call { lda: ld(call.stored_a()), ldb: ld(call.stored_b()), ldc: ld(call.shape_of_output()), ..call }
}

/// A matrix of so many rows and columns that is stored by columns, stored by rows.
fn by_rows(array: &[f64], (rows, cols): (i32, i32)) -> Vec<f64> {
    (0..rows * cols).map(|p| array[(p % cols * rows + p / cols) as usize]).collect()
}

/// With small integers, and a diagonal of ones in a solve, every order of the terms gives the same sums, so that a call
/// by rows can be held against the reference's call by columns.
#[test]
fn a_call_by_rows_is_the_call_by_columns_of_the_same_matrices() {
    for routine in ROUTINES {
        for index in cases(3_000) {
            let mut random = Random::of("by rows", index as u64);
            let (m, n, k, diag) = (random.from(0, 7), random.from(0, 7), random.from(0, 7), 'U' as i32);
            let (alpha, beta) = (index as f64 % 3.0, index as f64 % 2.0);
            let options = accepted(&mut random, routine, |_| ()).call;
            let call = tight(Call { m, n, k, diag, alpha, beta, ..options }, false);
            let mut integers = || -> Vec<f64> { (0..49).map(|_| random.from(-4, 4) as f64).collect() };
            let (a, b, mut out) = (integers(), integers(), integers());
            let (a_rows, b_rows) = (by_rows(&a, call.stored_a()), by_rows(&b, call.stored_b()));
            let mut out_rows = by_rows(&out, call.shape_of_output());
            assert_eq!(plain(&call, &a, &b, &mut out), 0);
            assert_eq!(c(ROW_MAJOR, &tight(call, true), &a_rows, &b_rows, &mut out_rows), 0);
            assert_eq!(out_rows, by_rows(&out, call.shape_of_output()), "case {index}: {call:?}");
        }
    }
}

/// The output and the factors may be parts of one array, as in a factorisation by blocks.
#[test]
fn parts_of_one_array() {
    let (n, k, ld) = (70, 20, 90);
    let gemm = Call::new(Routine::Gemm);
    let call = Call { m: n, n, k, lda: ld, ldb: ld, ldc: ld, alpha: -1.0, beta: 1.0, ..gemm };
    let mut random = Random::of("parts", 0);
    let before: Vec<f64> = (0..ld * ld).map(|_| random.float(-2, 1)).collect();
    let (below, beside) = (k as usize, (k * ld) as usize);

    let mut after = before.clone();
    let start = after.as_mut_ptr();
    let (a, b, c) = unsafe { (start.add(below), start.add(beside), start.add(beside + below)) };
    unsafe { dgemm_(&b'N', &b'N', &n, &n, &k, &call.alpha, a, &ld, b, &ld, &call.beta, c, &ld) };
    assert_eq!(number(), 0);

    let mut expected = before.clone();
    let c = &mut expected[beside + below..];
    assert_eq!(plain(&call, &before[below..], &before[beside..], c), 0);
    assert!(after.iter().zip(&expected).all(|(x, y)| x.to_bits() == y.to_bits()));
}

/// The arguments that netlib tests, with their numbers, in the order in which it tests them.
const TESTED: [(Routine, &[(&str, i32)]); 6] = [
    (
        Routine::Gemm,
        &[("transa", 1), ("transb", 2), ("m", 3), ("n", 4), ("k", 5), ("lda", 8), ("ldb", 10), ("ldc", 13)],
    ),
    (Routine::Symm, &[("side", 1), ("uplo", 2), ("m", 3), ("n", 4), ("lda", 7), ("ldb", 9), ("ldc", 12)]),
    (Routine::Syrk, &[("uplo", 1), ("transa", 2), ("n", 3), ("k", 4), ("lda", 7), ("ldc", 10)]),
    (Routine::Syr2k, &[("uplo", 1), ("transa", 2), ("n", 3), ("k", 4), ("lda", 7), ("ldb", 9), ("ldc", 12)]),
    (Routine::Trmm, IN_PLACE),
    (Routine::Trsm, IN_PLACE),
];
const IN_PLACE: &[(&str, i32)] =
    &[("side", 1), ("uplo", 2), ("transa", 3), ("diag", 4), ("m", 5), ("n", 6), ("lda", 9), ("ldb", 11)];

/// An argument of a call by its name.
fn argument<'c>(call: &'c mut Call, name: &str) -> &'c mut i32 {
    match name {
        "side" => &mut call.side,
        "uplo" => &mut call.uplo,
        "transa" => &mut call.transa,
        "transb" => &mut call.transb,
        "diag" => &mut call.diag,
        "m" => &mut call.m,
        "n" => &mut call.n,
        "k" => &mut call.k,
        "lda" => &mut call.lda,
        "ldb" => &mut call.ldb,
        "ldc" => &mut call.ldc,
        _ => panic!("{name}"),
    }
}

/// The argument with this number, or all from it on, are bad: codes are no letter, sizes negative, leading dimensions
/// below the rows, which are 2, or 0 for matrices without rows.
#[test]
fn bad_arguments_have_the_numbers_of_netlib() {
    for (routine, tested) in TESTED {
        for (place, &(name, right)) in tested.iter().enumerate() {
            let sound = Call { m: 2, n: 2, k: 2, lda: 2, ldb: 2, ldc: 2, ..Call::new(routine) };
            let (mut one, mut rest) = (sound, sound);
            *argument(&mut one, name) = if name.starts_with("ld") { 1 } else { -1 };
            tested[place..].iter().for_each(|(name, _)| *argument(&mut rest, name) = -1);
            let empty = Call { m: 0, n: 0, k: 0, lda: 1, ldb: 1, ldc: 1, ..sound };
            let mut no_leading = empty;
            *argument(&mut no_leading, name) = if name.starts_with("ld") { 0 } else { -1 };
            for call in [one, rest, no_leading] {
                let mut out = [9.0; 4];
                assert_eq!(fortran(&call, &[1.0; 4], &[1.0; 4], &mut out), right, "{call:?}");
                // A bad option goes to `cblas_xerbla`, with the layout as argument 1.
                let in_c = if name.len() > 1 && !name.starts_with("ld") { -(right + 1) } else { right };
                assert_eq!(c(COLUMN_MAJOR, &call, &[1.0; 4], &[1.0; 4], &mut out), in_c, "{call:?}");
                assert_eq!(c(7, &call, &[1.0; 4], &[1.0; 4], &mut out), -1);
                assert_eq!(out, [9.0; 4]);
            }
        }
    }
}

/// An array that is needed and null is refused with its own number.
#[test]
fn a_null_pointer_is_an_empty_array() {
    let null = std::ptr::null();
    let (mut c, two) = ([9.0; 4], 2);
    for (a, b, right) in [(null, c.as_ptr(), 7), (c.as_ptr(), null, 9)] {
        unsafe { dgemm_(&b'N', &b'N', &two, &two, &two, &1.0, a, &two, b, &two, &0.0, c.as_mut_ptr(), &two) };
        assert_eq!((number(), c), (right, [9.0; 4]));
    }
    unsafe { dgemm_(&b'N', &b'N', &two, &two, &two, &0.0, null, &two, null, &two, &2.0, c.as_mut_ptr(), &two) };
    assert_eq!((number(), c), (0, [18.0; 4]));
}
