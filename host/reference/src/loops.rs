//! The values of the elements, and the zero that a solve reports. Each operation is one f64 operation, rounded once; no
//! term is skipped.

use crate::{Call, Routine};

/// Gives the elements of the output's columns (or rows, where strips cut rows) `from..to` their values. The call is
/// accepted and neither m nor n is 0.
pub fn strip(call: &Call, a: &[f64], b: &[f64], out: &mut [f64], from: usize, to: usize) {
    match call.routine {
        Routine::Gemm => gemm(call, a, b, out, from, to),
        Routine::Symm => symm(call, a, b, out, from, to),
        Routine::Syrk => syrk(call, a, out, from, to),
        Routine::Syr2k => syr2k(call, a, b, out, from, to),
        Routine::Trmm => trmm(call, a, out, from, to),
        Routine::Trsm => trsm(call, a, out, from, to),
    }
}

/// Entry (i, j) of an array.
fn entry(x: &[f64], ld: i32, i: usize, j: usize) -> f64 {
    x[j * ld as usize + i]
}

/// Entry (i, j) of op(X).
fn op(transposed: bool, x: &[f64], ld: i32, i: usize, j: usize) -> f64 {
    if transposed {
        entry(x, ld, j, i)
    } else {
        entry(x, ld, i, j)
    }
}

/// Entry (i, j) lies in the triangle, diagonal included.
fn in_triangle(upper: bool, i: usize, j: usize) -> bool {
    if upper {
        i <= j
    } else {
        i >= j
    }
}

/// The start of element (i, j) of C.
fn start(call: &Call, c: &[f64], i: usize, j: usize) -> f64 {
    if call.beta == 0.0 {
        0.0
    } else if call.beta == 1.0 {
        entry(c, call.ldc, i, j)
    } else {
        call.beta * entry(c, call.ldc, i, j)
    }
}

/// e + (α·v)·u, u from the left factor and v from the right.
fn term(e: f64, alpha: f64, u: f64, v: f64) -> f64 {
    let t = alpha * v;
    let p = t * u;
    e + p
}

fn gemm(call: &Call, a: &[f64], b: &[f64], c: &mut [f64], from: usize, to: usize) {
    for j in from..to {
        for i in 0..call.m as usize {
            let mut e = start(call, c, i, j);
            if !call.start_only() {
                for l in 0..call.k as usize {
                    let u = op(call.transposed_a(), a, call.lda, i, l);
                    let v = op(call.transposed_b(), b, call.ldb, l, j);
                    e = term(e, call.alpha, u, v);
                }
            }
            c[j * call.ldc as usize + i] = e;
        }
    }
}

/// Entry (i, j) of the symmetric A, of which only one triangle is read.
fn symmetric(call: &Call, a: &[f64], i: usize, j: usize) -> f64 {
    if in_triangle(call.upper(), i, j) {
        entry(a, call.lda, i, j)
    } else {
        entry(a, call.lda, j, i)
    }
}

fn symm(call: &Call, a: &[f64], b: &[f64], c: &mut [f64], from: usize, to: usize) {
    for j in from..to {
        for i in 0..call.m as usize {
            let mut e = start(call, c, i, j);
            if !call.start_only() {
                if call.right() {
                    for l in 0..call.n as usize {
                        let u = entry(b, call.ldb, i, l);
                        let v = symmetric(call, a, l, j);
                        e = term(e, call.alpha, u, v);
                    }
                } else {
                    for l in 0..call.m as usize {
                        let u = symmetric(call, a, i, l);
                        let v = entry(b, call.ldb, l, j);
                        e = term(e, call.alpha, u, v);
                    }
                }
            }
            c[j * call.ldc as usize + i] = e;
        }
    }
}

fn syrk(call: &Call, a: &[f64], c: &mut [f64], from: usize, to: usize) {
    for j in from..to {
        for i in 0..call.n as usize {
            if in_triangle(call.upper(), i, j) {
                let mut e = start(call, c, i, j);
                if !call.start_only() {
                    for l in 0..call.k as usize {
                        let u = op(call.transposed_a(), a, call.lda, i, l);
                        let v = op(call.transposed_a(), a, call.lda, j, l);
                        e = term(e, call.alpha, u, v);
                    }
                }
                c[j * call.ldc as usize + i] = e;
            }
        }
    }
}

fn syr2k(call: &Call, a: &[f64], b: &[f64], c: &mut [f64], from: usize, to: usize) {
    for j in from..to {
        for i in 0..call.n as usize {
            if in_triangle(call.upper(), i, j) {
                let mut e = start(call, c, i, j);
                if !call.start_only() {
                    for l in 0..call.k as usize {
                        let u = op(call.transposed_a(), a, call.lda, i, l);
                        let v = op(call.transposed_a(), b, call.ldb, j, l);
                        e = term(e, call.alpha, u, v);
                    }
                    for l in 0..call.k as usize {
                        let u = op(call.transposed_a(), b, call.ldb, i, l);
                        let v = op(call.transposed_a(), a, call.lda, j, l);
                        e = term(e, call.alpha, u, v);
                    }
                }
                c[j * call.ldc as usize + i] = e;
            }
        }
    }
}

/// op(A) has its triangle above the diagonal.
fn op_upper(call: &Call) -> bool {
    call.upper() != call.transposed_a()
}

/// Entry (i, j) of op(A), in its triangle.
fn triangular(call: &Call, a: &[f64], i: usize, j: usize) -> f64 {
    if i == j && call.unit() {
        1.0
    } else {
        op(call.transposed_a(), a, call.lda, i, j)
    }
}

/// The rows and columns of B that lie in the strip.
fn rows_and_cols(call: &Call, from: usize, to: usize) -> (std::ops::Range<usize>, std::ops::Range<usize>) {
    if call.right() {
        (from..to, 0..call.n as usize)
    } else {
        (0..call.m as usize, from..to)
    }
}

fn trmm(call: &Call, a: &[f64], b: &mut [f64], from: usize, to: usize) {
    let old = b.to_vec();
    let (rows, cols) = rows_and_cols(call, from, to);
    for j in cols {
        for i in rows.clone() {
            let mut e = 0.0;
            if !call.start_only() {
                if call.right() {
                    for l in 0..call.n as usize {
                        if in_triangle(op_upper(call), l, j) {
                            let u = entry(&old, call.ldb, i, l);
                            let v = triangular(call, a, l, j);
                            e = term(e, call.alpha, u, v);
                        }
                    }
                } else {
                    for l in 0..call.m as usize {
                        if in_triangle(op_upper(call), i, l) {
                            let u = triangular(call, a, i, l);
                            let v = entry(&old, call.ldb, l, j);
                            e = term(e, call.alpha, u, v);
                        }
                    }
                }
            }
            b[j * call.ldb as usize + i] = e;
        }
    }
}

fn trsm(call: &Call, a: &[f64], b: &mut [f64], from: usize, to: usize) {
    let (rows, cols) = rows_and_cols(call, from, to);
    if call.start_only() {
        for j in cols {
            for i in rows.clone() {
                b[j * call.ldb as usize + i] = 0.0;
            }
        }
    } else if call.right() {
        for i in rows {
            solve_row(call, a, b, i);
        }
    } else {
        for j in cols {
            solve_column(call, a, b, j);
        }
    }
}

/// The indices in the order of solving: from low to high, or from high to low.
fn solving_order(order: i32, up: bool) -> Vec<usize> {
    let mut indices: Vec<usize> = (0..order as usize).collect();
    if !up {
        indices.reverse();
    }
    indices
}

/// Column j of X with op(A)·X = α·B. A lower op(A) is solved from low index to high, an upper one from high to low;
/// the terms are those already solved, in the order of solving.
fn solve_column(call: &Call, a: &[f64], b: &mut [f64], j: usize) {
    let order = solving_order(call.m, !op_upper(call));
    for (solved, &i) in order.iter().enumerate() {
        let mut e = call.alpha * entry(b, call.ldb, i, j);
        for &l in &order[..solved] {
            let u = triangular(call, a, i, l);
            let v = entry(b, call.ldb, l, j);
            e = term(e, -1.0, u, v);
        }
        if !call.unit() {
            e /= triangular(call, a, i, i);
        }
        b[j * call.ldb as usize + i] = e;
    }
}

/// Row i of X with X·op(A) = α·B. An upper op(A) is solved from low index to high, a lower one from high to low; the
/// terms are those already solved, in the order of solving.
fn solve_row(call: &Call, a: &[f64], b: &mut [f64], i: usize) {
    let order = solving_order(call.n, op_upper(call));
    for (solved, &j) in order.iter().enumerate() {
        let mut e = call.alpha * entry(b, call.ldb, i, j);
        for &l in &order[..solved] {
            let u = entry(b, call.ldb, i, l);
            let v = triangular(call, a, l, j);
            e = term(e, -1.0, u, v);
        }
        if !call.unit() {
            e /= triangular(call, a, j, j);
        }
        b[j * call.ldb as usize + i] = e;
    }
}

/// The lowest diagonal index at which the A of an accepted solve is zero (-0.0 is), or -1; it is -1 too with a unit
/// diagonal, with α, m or n zero, and of a call that is no solve.
pub fn zero(call: &Call, a: &[f64]) -> i32 {
    if call.routine != Routine::Trsm || call.unit() || call.alpha == 0.0 || call.m == 0 || call.n == 0 {
        return -1;
    }
    let order = if call.right() { call.n } else { call.m };
    for i in 0..order {
        if entry(a, call.lda, i as usize, i as usize) == 0.0 {
            return i;
        }
    }
    -1
}
