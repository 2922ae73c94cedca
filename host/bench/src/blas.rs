//! Other libraries' routines through the Fortran interface of the BLAS.

use crate::problem::Problem;
use crate::seconds;
use crate::shared::Shared;
use thamrunlek::Routine;

type Code = *const u8;
type Size = *const i32;
type Input = *const f64;
type Output = *mut f64;

/// The interface; gfortran passes the length of each code at the end.
#[rustfmt::skip]
mod fortran {
    use super::{Code, Input, Output, Size};
    pub type Gemm = unsafe extern "C" fn(Code, Code, Size, Size, Size, Input, Input, Size, Input, Size, Input, Output, Size, usize, usize);
    pub type Symm = unsafe extern "C" fn(Code, Code, Size, Size, Input, Input, Size, Input, Size, Input, Output, Size, usize, usize);
    pub type Syrk = unsafe extern "C" fn(Code, Code, Size, Size, Input, Input, Size, Input, Output, Size, usize, usize);
    pub type Trmm = unsafe extern "C" fn(Code, Code, Code, Code, Size, Size, Input, Input, Size, Output, Size, usize, usize, usize, usize);
}

/// The six routines.
pub struct Blas {
    pub gemm: fortran::Gemm,
    symm: fortran::Symm,
    syrk: fortran::Syrk,
    syr2k: fortran::Symm,
    trmm: fortran::Trmm,
    trsm: fortran::Trmm,
}

impl Blas {
    /// Those of a loaded library, which has to keep to the interface.
    pub fn of(library: &Shared) -> Result<Blas, String> {
        unsafe {
            Ok(Blas {
                gemm: library.function("dgemm_")?,
                symm: library.function("dsymm_")?,
                syrk: library.function("dsyrk_")?,
                syr2k: library.function("dsyr2k_")?,
                trmm: library.function("dtrmm_")?,
                trsm: library.function("dtrsm_")?,
            })
        }
    }

    /// Makes the call so many times and gives the seconds for one.
    pub fn time(&self, problem: &Problem, out: &mut [f64], calls: u32) -> f64 {
        let Problem { routine, options, n, a, b, .. } = problem;
        let order = *n as i32;
        let n: Size = &order;
        let (one, zero): (Input, Input) = (&1.0, &0.0);
        let (a, b, c) = (a.as_ptr(), b.as_ptr(), out.as_mut_ptr());
        let code = |place: usize| -> Code { &options[place] };
        seconds(calls, || unsafe {
            match routine {
                Routine::Gemm => (self.gemm)(code(0), code(1), n, n, n, one, a, n, b, n, zero, c, n, 1, 1),
                Routine::Symm => (self.symm)(code(0), code(1), n, n, one, a, n, b, n, zero, c, n, 1, 1),
                Routine::Syrk => (self.syrk)(code(0), code(1), n, n, one, a, n, zero, c, n, 1, 1),
                Routine::Syr2k => (self.syr2k)(code(0), code(1), n, n, one, a, n, b, n, zero, c, n, 1, 1),
                Routine::Trmm => (self.trmm)(code(0), code(1), code(2), code(3), n, n, one, a, n, c, n, 1, 1, 1, 1),
                Routine::Trsm => (self.trsm)(code(0), code(1), code(2), code(3), n, n, one, a, n, c, n, 1, 1, 1, 1),
            }
        })
    }
}
