//! The number of a refused call, and what it says.

use std::{error, fmt};

/// The six routines.
#[derive(Clone, Copy, Debug, PartialEq, Eq)]
pub enum Routine {
    /// General product.
    Gemm,
    /// Product with a symmetric matrix.
    Symm,
    /// Rank-k update of a symmetric matrix.
    Syrk,
    /// Rank-2k update of a symmetric matrix.
    Syr2k,
    /// Product with a triangular matrix.
    Trmm,
    /// Solution with a triangular matrix.
    Trsm,
}

impl Routine {
    /// All of them, in the order of their numbers in a call sheet.
    pub const ALL: [Routine; 6] =
        [Routine::Gemm, Routine::Symm, Routine::Syrk, Routine::Syr2k, Routine::Trmm, Routine::Trsm];

    /// The routine's name in the BLAS, in capitals.
    pub fn name(self) -> &'static str {
        match self {
            Routine::Gemm => "DGEMM",
            Routine::Symm => "DSYMM",
            Routine::Syrk => "DSYRK",
            Routine::Syr2k => "DSYR2K",
            Routine::Trmm => "DTRMM",
            Routine::Trsm => "DTRSM",
        }
    }

    /// The routine's arguments in order; argument 1 comes first.
    pub fn arguments(self) -> &'static [&'static str] {
        match self {
            Routine::Gemm => &["transa", "transb", "m", "n", "k", "alpha", "a", "lda", "b", "ldb", "beta", "c", "ldc"],
            Routine::Symm => &["side", "uplo", "m", "n", "alpha", "a", "lda", "b", "ldb", "beta", "c", "ldc"],
            Routine::Syrk => &["uplo", "trans", "n", "k", "alpha", "a", "lda", "beta", "c", "ldc"],
            Routine::Syr2k => &["uplo", "trans", "n", "k", "alpha", "a", "lda", "b", "ldb", "beta", "c", "ldc"],
            Routine::Trmm | Routine::Trsm => {
                &["side", "uplo", "transa", "diag", "m", "n", "alpha", "a", "lda", "b", "ldb"]
            }
        }
    }
}

/// A refused call: it wrote nothing. Its number is that of the first bad argument: the strip width and block size
/// (30) are tested first, then codes, sizes and leading dimensions in the order of the arguments, then the lengths of
/// the arrays in the same order. [`gemm_many`](crate::gemm_many) has GEMM's numbers; it tests the number of items (42)
/// and the strides (43) before the arrays, and the pack area (44) after them.
#[derive(Clone, Copy, Debug, PartialEq, Eq)]
pub struct Refusal {
    routine: Routine,
    number: i32,
}

impl Refusal {
    /// The outcome that a routine's number stands for.
    pub(crate) fn of(routine: Routine, number: i32) -> Result<(), Refusal> {
        match number {
            0 => Ok(()),
            _ => Err(Refusal { routine, number }),
        }
    }

    /// The routine that refused.
    pub fn routine(&self) -> Routine {
        self.routine
    }

    /// The number: the bad argument's place, or 30, or 42 to 44.
    pub fn number(&self) -> i32 {
        self.number
    }

    /// The bad argument's name, if the number is its place.
    pub fn argument(&self) -> Option<&'static str> {
        self.routine.arguments().get(self.number as usize - 1).copied()
    }
}

/// What is wrong if the number is no argument's place.
fn fault_without_place(number: i32) -> &'static str {
    match number {
        42 => "the number of items is not 0 to 1000",
        43 => "a stride is negative, or that of C is below what its matrix needs",
        44 => "the pack area is shorter than the m * k elements that are copied",
        _ => "the strip width or block size is not 0 to 64",
    }
}

impl fmt::Display for Refusal {
    fn fmt(&self, f: &mut fmt::Formatter) -> fmt::Result {
        let name = self.routine.name();
        let Some(argument) = self.argument() else {
            return write!(f, "{name}: {}", fault_without_place(self.number));
        };
        let fault = match argument {
            "side" | "uplo" | "trans" | "transa" | "transb" | "diag" => "is not a code that it takes",
            "m" | "n" | "k" => "is negative",
            "lda" | "ldb" | "ldc" => "is below 1 or below the rows of its matrix",
            _ => "is shorter than its matrix needs",
        };
        write!(f, "{name}: argument {} ({argument}) {fault}", self.number)
    }
}

impl error::Error for Refusal {}
