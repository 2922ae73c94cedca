//! The integer solution of triangular systems: two implementations on the same made-up systems.

pub mod calls;
mod cases;

pub use cases::{Argument, Case, ARGUMENTS};
/// The library.
pub use thamrunlek::raw::isolve as library;

use crate::{failed, Random};

/// An implementation: the code of the triangle, the order, A, B and X.
pub type Implementation<'f> = &'f dyn Fn(i32, i32, &[i16], &[i16], &mut [i16]) -> i32;

/// Solves the system with both implementations. Ok has what they hand back; an error says in what they differ: in that,
/// in X, or in what was not to be touched.
pub fn compare(case: &Case, tested: Implementation, expected: Implementation) -> Result<i32, String> {
    let Case { uplo, n, a, b, x } = case;
    let (a_after, b_after, mut x_after) = (a[0].clone(), b.clone(), x[0].clone());
    let number = tested(*uplo, *n, &a_after, &b_after, &mut x_after);
    let mut right = x[1].clone();
    let right_number = expected(*uplo, *n, &a[1], b, &mut right);

    if number != right_number {
        return Err(format!("it hands back {number} and not {right_number}"));
    }
    let right = if number == 0 { &right } else { &x[0] };
    for (name, after, right) in [("A", &a_after, &a[0]), ("B", &b_after, b), ("X", &x_after, right)] {
        if after != right {
            return Err(format!("{name} is {after:?} and not {right:?}"));
        }
    }
    Ok(number)
}

/// Compares the library with the reference on case number `index` of a test, made by `make` from a generator of its
/// own. On a difference it panics with what is needed to make the case again.
pub fn hold(test: &str, index: u64, make: impl FnOnce(&mut Random) -> Case) -> i32 {
    let case = make(&mut Random::of(test, index));
    compare(&case, &library, &reference::isolve).unwrap_or_else(|difference| {
        let lengths = [case.a[0].len(), case.b.len(), case.x[0].len()];
        failed(&difference, test, index, &(case.uplo, case.n), &lengths)
    })
}
