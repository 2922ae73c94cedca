//! The integer solution of a triangular system.

use crate::{raw, Triangle};
use std::{error, fmt};

/// What became of an accepted system.
#[must_use]
#[derive(Clone, Copy, Debug, PartialEq, Eq)]
pub enum Solution {
    /// X is written.
    Found,
    /// No X of 16-bit integers satisfies every equation, and nothing is written.
    None,
}

/// A refused system: nothing was written.
#[derive(Clone, Copy, Debug, PartialEq, Eq)]
pub struct IsolveRefusal {
    number: i32,
}

impl IsolveRefusal {
    /// The number: 39, 40 or 41.
    pub fn number(&self) -> i32 {
        self.number
    }
}

impl fmt::Display for IsolveRefusal {
    fn fmt(&self, f: &mut fmt::Formatter) -> fmt::Result {
        f.write_str(match self.number {
            39 => "the order is not 1 to 64",
            40 => "A has not exactly n * n elements, or B or X not exactly n",
            _ => "the diagonal of A has a zero",
        })
    }
}

impl error::Error for IsolveRefusal {}

/// X with A·X = B over whole numbers, or the certainty that there is none. A has order n, 1 to 64, and n·n elements, by
/// columns and without padding; only its triangle `uplo` is read, and no zero is on its diagonal. B and X have n
/// elements. Nothing wraps around: where X is found, every equation holds as it stands.
///
/// # Example
///
/// ```
/// use thamrunlek::{isolve, Solution, Triangle::Lower};
///
/// let a = [3, 5, 0, 4]; // 3·x = 6 and 5·x + 4·y = -2
/// let mut x = [7, 7];
/// assert_eq!(isolve(Lower, 2, &a, &[6, -2], &mut x)?, Solution::Found);
/// assert_eq!(x, [2, -3]);
///
/// assert_eq!(isolve(Lower, 2, &a, &[6, -1], &mut x)?, Solution::None);
/// assert_eq!(x, [2, -3]);
///
/// let refusal = isolve(Lower, 2, &[3, 5, 0, 0], &[6, -2], &mut x).unwrap_err();
/// assert_eq!(refusal.number(), 41);
/// assert_eq!(refusal.to_string(), "the diagonal of A has a zero");
/// # Ok::<(), thamrunlek::IsolveRefusal>(())
/// ```
pub fn isolve(uplo: Triangle, n: i32, a: &[i16], b: &[i16], x: &mut [i16]) -> Result<Solution, IsolveRefusal> {
    match raw::isolve(uplo.code(), n, a, b, x) {
        0 => Ok(Solution::Found),
        -1 => Ok(Solution::None),
        number => Err(IsolveRefusal { number }),
    }
}
