//! The six routines under their BLAS and CBLAS names, for programs that link a BLAS library: a shared and a static
//! library over the proved calls, with the interface of netlib's BLAS on 32-bit integers.
//!
//! Each routine does what netlib's does, with the bits that the proved call gives. A bad argument goes to `xerbla_`
//! with netlib's number, and then nothing has been written. The matrices of a call may be parts of one array, as long
//! as no entry of the output is an entry of an input.
//!
//! Strip width and block size are 0, the library's choice, or what the environment variables THAMRUNLEK_W and
//! THAMRUNLEK_R say; they are read once, at the first call. The build of the library is the widest that the machine
//! supports, or a narrower one that THAMRUNLEK_CPU names. All three change the time that a call takes and never its
//! result.

#![deny(missing_docs)]
#![allow(clippy::missing_safety_doc, clippy::too_many_arguments)]

mod blocks;
mod calls;
pub mod cblas;
pub mod fortran;

// The default handlers of bad arguments. Each is a crate, and so an object file, of its own: a program that has one of
// them itself links without ours.
extern crate cblas_xerbla as _;
extern crate xerbla as _;
