//! `xerbla_`, which the drop-in library calls with the number of a bad argument.
//!
//! This one writes a message on standard error and goes back to the caller, as the routine has written nothing. A
//! program's own `xerbla_` takes precedence over it.

#![deny(missing_docs)]

use std::ffi::{c_char, CString};
use std::io::{stderr, Write};
use std::slice;
use std::sync::atomic::{AtomicI32, Ordering::Relaxed};

extern "C" {
    static CBLAS_CallFromC: AtomicI32;
    fn cblas_xerbla(number: i32, name: *const c_char, form: *const c_char, ...);
}

/// Says which argument of which routine is bad. A call that came through the C interface goes on to `cblas_xerbla`,
/// whose calls have one argument more, the layout, in front.
///
/// # Safety
/// `name` has `name_len` characters.
#[no_mangle]
pub unsafe extern "C" fn xerbla_(name: *const u8, number: *const i32, name_len: usize) {
    let name = String::from_utf8_lossy(slice::from_raw_parts(name, name_len));
    let (name, number) = (name.trim_end(), *number);
    if CBLAS_CallFromC.load(Relaxed) != 0 {
        let name = CString::new(format!("cblas_{}", name.to_lowercase())).unwrap_or_default();
        cblas_xerbla(number + 1, name.as_ptr(), c"".as_ptr());
        return;
    }
    let argument = thamrunlek::Routine::ALL
        .iter()
        .find(|routine| routine.name() == name)
        .and_then(|routine| routine.arguments().iter().zip(1..).find(|(_, place)| *place == number));
    let _ = match argument {
        Some((argument, _)) => {
            writeln!(stderr(), "{name}: argument {number} ({argument}) is bad; the call wrote nothing")
        }
        None => writeln!(stderr(), "{name}: argument {number} is bad"),
    };
}
