//! The integer solution of a triangular system (document 02, K8), without a division: each unknown is put together bit
//! by bit, and at the end every equation is tested.

use crate::check::bad_uplo;
use crate::is;

/// The number of the first bad argument of a system whose B and X have these lengths, or 0: 39, 40 and 41.
pub fn check_isolve(uplo: i32, n: i32, a: &[i16], b_len: usize, x_len: usize) -> i32 {
    if bad_uplo(uplo) || !(1..=64).contains(&n) {
        return 39;
    }
    let n = n as usize;
    if a.len() != n * n || b_len != n || x_len != n {
        return 40;
    }
    if (0..n).any(|i| a[i * n + i] == 0) {
        return 41;
    }
    0
}

/// The left side of equation i: the products of the triangle's entries in row i and the unknowns.
fn left_side(upper: bool, n: usize, a: &[i16], x: &[i128], i: usize) -> i128 {
    let columns = if upper { i..n } else { 0..i + 1 };
    columns.map(|j| a[j * n + i] as i128 * x[j]).sum()
}

/// The one column that can be a solution. Each unknown starts at the least number of 16 bits, and takes up each power of
/// two, from the largest one on, with which the left side of its equation does not go past the right side.
fn candidate(upper: bool, n: usize, a: &[i16], b: &[i16]) -> Vec<i128> {
    let mut x = vec![0; n];
    for step in 0..n {
        let i = if upper { n - 1 - step } else { step };
        x[i] = -32768;
        for bit in (0..16).rev() {
            x[i] += 1 << bit;
            let left = left_side(upper, n, a, &x, i);
            let past = if a[i * n + i] > 0 { left > b[i] as i128 } else { left < b[i] as i128 };
            if past {
                x[i] -= 1 << bit;
            }
        }
    }
    x
}

/// The system: 0 and X is written, -1 if there is none, or the number of the first bad argument. Only with 0 anything
/// is written.
pub fn isolve(uplo: i32, n: i32, a: &[i16], b: &[i16], x: &mut [i16]) -> i32 {
    let number = check_isolve(uplo, n, a, b.len(), x.len());
    if number != 0 {
        return number;
    }
    let (upper, n) = (is(uplo, 'U'), n as usize);
    let found = candidate(upper, n, a, b);
    if (0..n).any(|i| left_side(upper, n, a, &found, i) != b[i] as i128) {
        return -1;
    }
    for i in 0..n {
        x[i] = found[i] as i16;
    }
    0
}
