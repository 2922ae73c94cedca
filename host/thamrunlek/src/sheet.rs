//! Runs of a call sheet.

use crate::index;
use crate::raw::{self, RunEnd};
use std::{error, fmt};

/// Where a sheet stands: at a strip of a record, both from 0. The default is its beginning.
#[derive(Clone, Copy, Debug, Default, PartialEq, Eq)]
pub struct Cursor {
    /// The record that comes next; the sheet is finished when it is the count of the records.
    pub record: i32,
    /// The strip of it that comes next.
    pub strip: i32,
}

/// What a run did.
#[derive(Clone, Copy, Debug, PartialEq, Eq)]
pub struct Ran {
    /// Where the sheet stands now.
    pub cursor: Cursor,
    /// The steps made: as many as the budget, or fewer if the sheet is finished.
    pub steps: u32,
    /// The first record whose solve had a zero on the diagonal, by the rules of [`Solved`](crate::Solved), if there is
    /// one. A solve counts in the run that makes its last strip.
    pub zero: Option<i32>,
}

/// A refused run: it wrote nothing, and its cursor stands.
#[derive(Clone, Copy, Debug, PartialEq, Eq)]
pub struct RunRefusal {
    number: i32,
}

impl RunRefusal {
    /// The number: 34, 35 or 36.
    pub fn number(&self) -> i32 {
        self.number
    }
}

impl fmt::Display for RunRefusal {
    fn fmt(&self, f: &mut fmt::Formatter) -> fmt::Result {
        f.write_str(match self.number {
            34 => "the sheet's last two words are not the index and the count of its records",
            35 => "fewer answers than records, or fewer scalars than twice as many",
            _ => "the cursor is at no record, or at no strip of an accepted one",
        })
    }
}

impl error::Error for RunRefusal {}

/// Runs a call sheet: at most `budget` steps from the cursor on, each of them a strip of a record.
///
/// The last two words of a sheet are the index of its first record and the count of its records; words before the
/// index are not read. A record has 20 words: the routine (1 to 6: GEMM, SYMM, SYRK, SYR2K, TRMM, TRSM); the codes
/// side, uplo, trans or transa, transb and diag; m, n and k; for A, for B and for C an array (0, 1, 2: `x`, `y`, `z`),
/// the first element in it and the leading dimension; the strip width and the block size. Words that the routine lacks
/// are not read. The array that is written has no other matrix of its record. α of record p is `scalars[2 * p]`, and
/// β `scalars[2 * p + 1]`.
///
/// When a record is through, `answers[p]` is 0, or the number of its refusal: 31 for the routine, 32 for an array, 33
/// for a first element, or the number that the routine itself refuses with. A refused record costs one step and writes
/// nothing else. A solve with a zero on the diagonal is not refused; [`Ran`] names the first one.
///
/// The arrays, the answers and the cursor are all that a sheet needs to be taken up again; how it is cut into runs
/// changes no bit.
///
/// # Example
///
/// ```
/// use thamrunlek::{run, Cursor};
///
/// const N: i32 = 'N' as i32;
/// #[rustfmt::skip]
/// let sheet = [
///     1, 0, 0, N, N, 0, // GEMM without transposes
///     2, 3, 2,          // m, n, k
///     0, 0, 2,          // A is x, with leading dimension 2
///     1, 0, 2,          // B is y
///     2, 0, 2,          // C is z
///     1, 0,             // strips of one column, blocks as the library chooses
///     0, 1,             // the first record is at word 0, and there is one
/// ];
/// let scalars = [1.0, 0.0];
/// let (mut x, mut y) = ([1.0, 3.0, 2.0, 4.0], [5.0, 7.0, 6.0, 8.0, 1.0, 0.0]);
/// let (mut z, mut answers) = ([0.0; 6], [-1]);
///
/// let ran = run(&sheet, &scalars, &mut x, &mut y, &mut z, &mut answers, Cursor::default(), 2)?;
/// assert_eq!(ran.cursor, Cursor { record: 0, strip: 2 });
/// assert_eq!((z, answers), ([19.0, 43.0, 22.0, 50.0, 0.0, 0.0], [-1]));
///
/// let ran = run(&sheet, &scalars, &mut x, &mut y, &mut z, &mut answers, ran.cursor, 100)?;
/// assert_eq!((ran.cursor, ran.steps), (Cursor { record: 1, strip: 0 }, 1));
/// assert_eq!((z, answers), ([19.0, 43.0, 22.0, 50.0, 1.0, 3.0], [0]));
/// # Ok::<(), thamrunlek::RunRefusal>(())
/// ```
pub fn run(
    sheet: &[i32], scalars: &[f64], x: &mut [f64], y: &mut [f64], z: &mut [f64], answers: &mut [i32], cursor: Cursor,
    budget: u32,
) -> Result<Ran, RunRefusal> {
    let RunEnd { number, p, s, steps, zero } =
        raw::run(sheet, scalars, x, y, z, answers, cursor.record, cursor.strip, budget);
    match number {
        0 => Ok(Ran { cursor: Cursor { record: p, strip: s }, steps, zero: index(zero) }),
        _ => Err(RunRefusal { number }),
    }
}
