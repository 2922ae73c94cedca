//! The library's routines through their C interface.

use crate::problem::Problem;
use crate::seconds;
use crate::shared::Shared;
use thamrunlek::{raw, Routine};

type Input = *const f64;
type Output = *mut f64;

#[rustfmt::skip]
mod c {
    use super::{Input, Output};
    use thamrunlek::raw::{ManyEnd, SolveEnd};
    pub type Gemm = unsafe extern "C" fn(i32, i32, i32, i32, i32, f64, Input, usize, i32, Input, usize, i32, f64, Output, usize, i32, i32, i32) -> i32;
    pub type Many = unsafe extern "C" fn(i32, i32, i32, i32, f64, Input, usize, i32, Input, usize, i32, i32, f64, Output, usize, i32, i32, i32, Output, usize, i32, i32) -> ManyEnd;
    pub type Isolve = unsafe extern "C" fn(i32, i32, *const i16, usize, *const i16, usize, *mut i16, usize) -> i32;
    pub type Symm = unsafe extern "C" fn(i32, i32, i32, i32, f64, Input, usize, i32, Input, usize, i32, f64, Output, usize, i32, i32, i32) -> i32;
    pub type Syrk = unsafe extern "C" fn(i32, i32, i32, i32, f64, Input, usize, i32, f64, Output, usize, i32, i32, i32) -> i32;
    pub type Trmm = unsafe extern "C" fn(i32, i32, i32, i32, i32, i32, f64, Input, usize, i32, Output, usize, i32, i32, i32) -> i32;
    pub type Trsm = unsafe extern "C" fn(i32, i32, i32, i32, i32, i32, f64, Input, usize, i32, Output, usize, i32, i32, i32) -> SolveEnd;
}

/// The six routines, GEMM of many items and integer solutions.
pub struct Own {
    pub gemm: c::Gemm,
    pub many: c::Many,
    pub isolve: c::Isolve,
    symm: c::Symm,
    syrk: c::Syrk,
    syr2k: c::Symm,
    trmm: c::Trmm,
    trsm: c::Trsm,
}

/// A strip width and a block size.
pub type Blocks = (i32, i32);

/// The library's own choice.
pub const BLOCKS: Blocks = (0, 0);

/// The widths and sizes whose pairs are compared; 0 works as 64.
pub const GRID: [i32; 6] = [0, 8, 16, 32, 48, 64];

/// Every pair of the grid.
pub fn pairs() -> Vec<Blocks> {
    GRID.iter().flat_map(|&w| GRID.map(|r| (w, r))).collect()
}

impl Own {
    /// Those of the library that this program is linked with.
    pub fn linked() -> Own {
        Own {
            gemm: raw::tl_dgemm,
            many: raw::tl_dgemm_many,
            isolve: raw::tl_isolve,
            symm: raw::tl_dsymm,
            syrk: raw::tl_dsyrk,
            syr2k: raw::tl_dsyr2k,
            trmm: raw::tl_dtrmm,
            trsm: raw::tl_dtrsm,
        }
    }

    /// Those of a loaded library, which has to be this one.
    pub fn of(library: &Shared) -> Result<Own, String> {
        unsafe {
            Ok(Own {
                gemm: library.function("tl_dgemm")?,
                many: library.function("tl_dgemm_many")?,
                isolve: library.function("tl_isolve")?,
                symm: library.function("tl_dsymm")?,
                syrk: library.function("tl_dsyrk")?,
                syr2k: library.function("tl_dsyr2k")?,
                trmm: library.function("tl_dtrmm")?,
                trsm: library.function("tl_dtrsm")?,
            })
        }
    }

    /// GEMM without the jump that its name is: the function of the build in use.
    pub fn behind_the_jump(self) -> Own {
        // The jump is `ff 25` and the distance of the pointer from the next instruction, in four bytes.
        unsafe {
            let name = self.gemm as *const u8;
            assert_eq!(name.cast::<[u8; 2]>().read_unaligned(), [0xff, 0x25], "an exported name is a jump");
            let distance = name.add(2).cast::<i32>().read_unaligned();
            let pointer = name.offset(6 + distance as isize).cast::<c::Gemm>();
            Own { gemm: pointer.read(), ..self }
        }
    }

    /// Makes the call so many times and gives the seconds for one.
    pub fn time(&self, problem: &Problem, out: &mut [f64], calls: u32, (w, r): Blocks) -> f64 {
        let Problem { routine, options, n, a, b, .. } = problem;
        let (n, len) = (*n as i32, n * n);
        let (a, b, c) = (a.as_ptr(), b.as_ptr(), out.as_mut_ptr());
        let code = |place: usize| options[place] as i32;
        let (one, zero) = (1.0, 0.0);
        let call = || unsafe {
            match routine {
                Routine::Gemm => {
                    (self.gemm)(code(0), code(1), n, n, n, one, a, len, n, b, len, n, zero, c, len, n, w, r)
                }
                Routine::Symm => (self.symm)(code(0), code(1), n, n, one, a, len, n, b, len, n, zero, c, len, n, w, r),
                Routine::Syrk => (self.syrk)(code(0), code(1), n, n, one, a, len, n, zero, c, len, n, w, r),
                Routine::Syr2k => {
                    (self.syr2k)(code(0), code(1), n, n, one, a, len, n, b, len, n, zero, c, len, n, w, r)
                }
                Routine::Trmm => (self.trmm)(code(0), code(1), code(2), code(3), n, n, one, a, len, n, c, len, n, w, r),
                Routine::Trsm => {
                    (self.trsm)(code(0), code(1), code(2), code(3), n, n, one, a, len, n, c, len, n, w, r).number
                }
            }
        };
        seconds(calls, || assert_eq!(call(), 0))
    }
}
