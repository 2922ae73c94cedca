//! `cblas_xerbla`, which the drop-in library calls with the number of a bad argument of a C call.
//!
//! This one writes a message on standard error and goes back to the caller, as the routine has written nothing. A
//! program's own `cblas_xerbla` takes precedence over it.

#![deny(missing_docs)]

use std::ffi::{c_char, CStr};
use std::io::{stderr, Write};
use std::sync::atomic::{AtomicI32, Ordering::Relaxed};

extern "C" {
    static RowMajorStrg: AtomicI32;
}

/// Says which argument of which routine is bad. C declares it with more arguments behind `form`; they are not looked
/// at, since the number says all.
///
/// # Safety
/// `name` ends with a zero.
#[no_mangle]
pub unsafe extern "C" fn cblas_xerbla(number: i32, name: *const c_char, _form: *const c_char) {
    let name = CStr::from_ptr(name).to_string_lossy();
    let number = if RowMajorStrg.load(Relaxed) != 0 { by_rows(&name, number) } else { number };
    let argument = thamrunlek::Routine::ALL
        .iter()
        .find(|routine| name.strip_prefix("cblas_") == Some(routine.name().to_lowercase().as_str()))
        .and_then(|routine| ["layout"].iter().chain(routine.arguments()).zip(1..).find(|(_, place)| *place == number));
    let _ = match argument {
        Some((argument, _)) => {
            writeln!(stderr(), "{name}: argument {number} ({argument}) is bad; the call wrote nothing")
        }
        None => writeln!(stderr(), "{name}: argument {number} is bad"),
    };
}

/// The place in the program's call, which is by rows, of an argument of the call by columns that was made for it: the
/// sizes m and n have changed places, and GEMM's factors.
fn by_rows(name: &str, number: i32) -> i32 {
    match (name, number) {
        ("cblas_dgemm" | "cblas_dsymm", 4) => 5,
        ("cblas_dgemm" | "cblas_dsymm", 5) => 4,
        ("cblas_dgemm", 8) => 10,
        ("cblas_dgemm", 10) => 8,
        ("cblas_dgemm", 9) => 11,
        ("cblas_dgemm", 11) => 9,
        ("cblas_dtrmm" | "cblas_dtrsm", 6) => 7,
        ("cblas_dtrmm" | "cblas_dtrsm", 7) => 6,
        _ => number,
    }
}
