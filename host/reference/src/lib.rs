//! The six Level 3 routines as plain loops, GEMM of many items, the integer solution of triangular systems, and call
//! sheets as a plain machine.
//!
//! Everything here is written by hand from documents 01 and 02, slow and obvious on purpose: it is what the tests hold
//! the library against. It shares no code with the library or its wrapper.
//!
//! A [`Call`] holds the arguments of a direct call as they come in, good or bad. [`direct`] checks and makes it.

#![forbid(unsafe_code)]
#![deny(missing_docs)]

mod check;
mod isolve;
mod loops;
pub mod machine;
mod many;

pub use check::check;
pub use isolve::{check_isolve, isolve};
pub use loops::zero;
pub use many::{check_many, many, Many, ManyDone};

/// The six routines, with their numbers in a call sheet.
#[derive(Clone, Copy, Debug, PartialEq, Eq)]
pub enum Routine {
    /// C ← α·op(A)·op(B) + β·C
    Gemm = 1,
    /// C ← α·A·B + β·C or α·B·A + β·C, A symmetric
    Symm = 2,
    /// C ← α·op(A)·op(A)ᵀ + β·C, one triangle
    Syrk = 3,
    /// C ← α·op(A)·op(B)ᵀ + α·op(B)·op(A)ᵀ + β·C, one triangle
    Syr2k = 4,
    /// B ← α·op(A)·B or α·B·op(A), A triangular
    Trmm = 5,
    /// B ← α·op(A)⁻¹·B or α·B·op(A)⁻¹, A triangular
    Trsm = 6,
}

/// All six routines, in the order of their numbers.
pub const ROUTINES: [Routine; 6] =
    [Routine::Gemm, Routine::Symm, Routine::Syrk, Routine::Syr2k, Routine::Trmm, Routine::Trsm];

impl Routine {
    /// TRMM and TRSM write over B; the others write C.
    pub fn in_place(self) -> bool {
        self == Routine::Trmm || self == Routine::Trsm
    }

    /// GEMM, SYRK and SYR2K have an inner size k.
    pub fn has_k(self) -> bool {
        self == Routine::Gemm || self == Routine::Syrk || self == Routine::Syr2k
    }

    /// SYRK and SYR2K have no m: their C is n by n.
    pub fn has_m(self) -> bool {
        self != Routine::Syrk && self != Routine::Syr2k
    }
}

/// The arguments of a direct call, without its arrays. What the routine lacks is not looked at.
#[derive(Clone, Copy, Debug)]
#[allow(missing_docs)]
pub struct Call {
    pub routine: Routine,
    pub side: i32,
    pub uplo: i32,
    /// trans of SYRK and SYR2K, transa of the others
    pub transa: i32,
    pub transb: i32,
    pub diag: i32,
    pub m: i32,
    pub n: i32,
    pub k: i32,
    pub alpha: f64,
    pub beta: f64,
    pub lda: i32,
    pub ldb: i32,
    pub ldc: i32,
    /// strip width
    pub w: i32,
    /// block size
    pub r: i32,
}

impl Call {
    /// A call of `routine` with sizes 0, leading dimensions 1, options L, L, N, N, N, α = 1, β = 0 and w = r = 64.
    pub fn new(routine: Routine) -> Call {
        let (letter_l, letter_n) = ('L' as i32, 'N' as i32);
        Call {
            routine,
            side: letter_l,
            uplo: letter_l,
            transa: letter_n,
            transb: letter_n,
            diag: letter_n,
            m: 0,
            n: 0,
            k: 0,
            alpha: 1.0,
            beta: 0.0,
            lda: 1,
            ldb: 1,
            ldc: 1,
            w: 64,
            r: 64,
        }
    }

    /// Side R.
    pub fn right(&self) -> bool {
        is(self.side, 'R')
    }

    /// Triangle U.
    pub fn upper(&self) -> bool {
        is(self.uplo, 'U')
    }

    /// Unit diagonal.
    pub fn unit(&self) -> bool {
        is(self.diag, 'U')
    }

    /// op(A) is the transpose of A.
    pub fn transposed_a(&self) -> bool {
        !is(self.transa, 'N')
    }

    /// op(B) is the transpose of B.
    pub fn transposed_b(&self) -> bool {
        !is(self.transb, 'N')
    }

    /// Rows and columns of A as it is stored.
    pub fn stored_a(&self) -> (i32, i32) {
        let order = if self.right() { self.n } else { self.m };
        match self.routine {
            Routine::Gemm => stored(self.transposed_a(), self.m, self.k),
            Routine::Syrk | Routine::Syr2k => stored(self.transposed_a(), self.n, self.k),
            Routine::Symm | Routine::Trmm | Routine::Trsm => (order, order),
        }
    }

    /// Rows and columns of B as it is stored; SYRK has none.
    pub fn stored_b(&self) -> (i32, i32) {
        match self.routine {
            Routine::Gemm => stored(self.transposed_b(), self.k, self.n),
            Routine::Syrk => (0, 0),
            Routine::Syr2k => stored(self.transposed_a(), self.n, self.k),
            Routine::Symm | Routine::Trmm | Routine::Trsm => (self.m, self.n),
        }
    }

    /// Rows and columns of the output, which is C, or B for TRMM and TRSM.
    pub fn shape_of_output(&self) -> (i32, i32) {
        if self.routine.has_m() {
            (self.m, self.n)
        } else {
            (self.n, self.n)
        }
    }

    /// The output's leading dimension.
    pub fn ld_of_output(&self) -> i32 {
        if self.routine.in_place() {
            self.ldb
        } else {
            self.ldc
        }
    }

    /// m or n is 0.
    pub fn empty(&self) -> bool {
        let (rows, cols) = self.shape_of_output();
        rows == 0 || cols == 0
    }

    /// α or k is 0, so that the start of each element is its result.
    pub fn start_only(&self) -> bool {
        self.alpha == 0.0 || (self.routine.has_k() && self.k == 0)
    }

    /// Strips cut the output's rows for TRMM and TRSM of side R, else its columns.
    pub fn strips_cut_rows(&self) -> bool {
        self.routine.in_place() && self.right()
    }

    /// The size that the strips cut.
    pub fn extent(&self) -> i32 {
        if self.strips_cut_rows() {
            self.m
        } else {
            self.n
        }
    }

    /// The number of strips.
    pub fn strips(&self) -> i32 {
        if self.empty() {
            return 1;
        }
        let (d, w) = (self.extent(), width(self.w));
        d / w + if d % w == 0 { 0 } else { 1 }
    }
}

/// The code is the letter, in upper or lower case.
pub fn is(code: i32, letter: char) -> bool {
    code == letter as i32 || code == letter.to_ascii_lowercase() as i32
}

/// What a strip width or block size works as: 0 as 64.
pub fn width(w: i32) -> i32 {
    if w == 0 {
        64
    } else {
        w
    }
}

/// The elements that an array of `rows` and `cols` needs.
pub fn needed(ld: i32, rows: i32, cols: i32) -> usize {
    if rows == 0 || cols == 0 {
        return 0;
    }
    ld as usize * (cols as usize - 1) + rows as usize
}

/// How a matrix is stored whose op is `rows` by `cols`.
fn stored(transposed: bool, rows: i32, cols: i32) -> (i32, i32) {
    if transposed {
        (cols, rows)
    } else {
        (rows, cols)
    }
}

/// What a direct call hands back.
#[derive(Clone, Copy, Debug, PartialEq, Eq)]
pub struct Done {
    /// 0 if the call was accepted, else its number
    pub number: i32,
    /// the lowest diagonal index at which the A of a solve is zero, or -1
    pub zero: i32,
}

impl Done {
    /// This number, and no zero.
    pub fn of(number: i32) -> Done {
        Done { number, zero: -1 }
    }
}

/// A direct call. `out` is C, or B for TRMM and TRSM, which do not look at `b`; neither does SYRK.
pub fn direct(call: &Call, a: &[f64], b: &[f64], out: &mut [f64]) -> Done {
    let number = check(call, a.len(), b.len(), out.len());
    if number != 0 {
        return Done::of(number);
    }
    if !call.empty() {
        loops::strip(call, a, b, out, 0, call.extent() as usize);
    }
    Done { number, zero: zero(call, a) }
}

#[cfg(test)]
mod tests;
