//! The comparison can fail: each of these plausible and false implementations is told apart from the reference.

use compare::calls::{self, Calls};
use compare::{accepted, compare, Implementation, Random};
use reference::{check, direct, width, zero, Call, Done, Routine};

/// The first of 2,000 made-up calls on which the implementation differs from the reference.
fn told_apart(routine: Routine, wrong: Implementation) -> Option<u64> {
    (0..2000).find(|&index| {
        let case = accepted(&mut Random::of("teeth", index), routine, |_| ());
        compare(&case, wrong, &direct).is_err()
    })
}

/// One of these calls of the routine tells the implementation apart from the reference.
fn told_apart_by(calls: Calls, routine: Routine, wrong: Implementation) -> bool {
    let mut apart = false;
    calls(routine, &mut |test, index, make| {
        apart = apart || compare(&make(&mut Random::of(test, index)), wrong, &direct).is_err();
    });
    apart
}

fn entry(x: &[f64], ld: i32, i: usize, j: usize) -> f64 {
    x[j * ld as usize + i]
}

fn op(transposed: bool, x: &[f64], ld: i32, i: usize, j: usize) -> f64 {
    if transposed {
        entry(x, ld, j, i)
    } else {
        entry(x, ld, i, j)
    }
}

/// β times the old element, by cases.
fn start(beta: f64, old: f64) -> f64 {
    match beta {
        0.0 => 0.0,
        1.0 => old,
        _ => beta * old,
    }
}

/// One term.
fn add(call: &Call, e: f64, (u, v): (f64, f64)) -> f64 {
    e + (call.alpha * v) * u
}

/// An element of GEMM from the old element and its factors u and v.
type Element = fn(&Call, f64, &[(f64, f64)]) -> f64;

/// GEMM with the elements worked out by `element`.
fn gemm(element: Element) -> impl Fn(&Call, &[f64], &[f64], &mut [f64]) -> Done {
    move |call, a, b, c| {
        let number = check(call, a.len(), b.len(), c.len());
        if number != 0 {
            return Done::of(number);
        }
        let terms = if call.start_only() { 0 } else { call.k as usize };
        for j in 0..call.n as usize {
            for i in 0..call.m as usize {
                let u = |l| op(call.transposed_a(), a, call.lda, i, l);
                let v = |l| op(call.transposed_b(), b, call.ldb, l, j);
                let factors: Vec<(f64, f64)> = (0..terms).map(|l| (u(l), v(l))).collect();
                let place = j * call.ldc as usize + i;
                c[place] = element(call, c[place], &factors);
            }
        }
        Done::of(0)
    }
}

fn right(call: &Call, old: f64, factors: &[(f64, f64)]) -> f64 {
    factors.iter().fold(start(call.beta, old), |e, &term| add(call, e, term))
}

fn reversed(call: &Call, old: f64, factors: &[(f64, f64)]) -> f64 {
    factors.iter().rev().fold(start(call.beta, old), |e, &term| add(call, e, term))
}

fn alpha_at_the_end(call: &Call, old: f64, factors: &[(f64, f64)]) -> f64 {
    start(call.beta, old) + call.alpha * factors.iter().fold(0.0, |e, &(u, v)| e + v * u)
}

fn zeros_skipped(call: &Call, old: f64, factors: &[(f64, f64)]) -> f64 {
    factors.iter().filter(|(_, v)| *v != 0.0).fold(start(call.beta, old), |e, &term| add(call, e, term))
}

fn fused(call: &Call, old: f64, factors: &[(f64, f64)]) -> f64 {
    factors.iter().fold(start(call.beta, old), |e, &(u, v)| (call.alpha * v).mul_add(u, e))
}

fn beta_for_each_panel(call: &Call, old: f64, factors: &[(f64, f64)]) -> f64 {
    let panels = factors.chunks(width(call.r) as usize);
    panels.fold(old, |e, panel| panel.iter().fold(start(call.beta, e), |e, &term| add(call, e, term)))
}

fn partial_sums(call: &Call, old: f64, factors: &[(f64, f64)]) -> f64 {
    let panels = factors.chunks(width(call.r) as usize);
    panels.fold(start(call.beta, old), |e, panel| e + panel.iter().fold(0.0, |e, &term| add(call, e, term)))
}

fn old_element_times_zero(call: &Call, old: f64, factors: &[(f64, f64)]) -> f64 {
    factors.iter().fold(call.beta * old, |e, &term| add(call, e, term))
}

#[test]
fn wrong_elements() {
    let wrong: [(&str, Element); 7] = [
        ("reversed", reversed),
        ("alpha at the end", alpha_at_the_end),
        ("zeros skipped", zeros_skipped),
        ("fused", fused),
        ("beta for each panel", beta_for_each_panel),
        ("partial sums", partial_sums),
        ("old element times zero", old_element_times_zero),
    ];
    for (name, element) in wrong {
        assert!(told_apart(Routine::Gemm, &gemm(element)).is_some(), "{name}");
    }
    assert_eq!(told_apart(Routine::Gemm, &gemm(right)), None);
}

/// The entries of the output that `which` chooses become zero.
fn clear(call: &Call, out: &mut [f64], which: impl Fn(usize, usize) -> bool) {
    let ld = call.ld_of_output() as usize;
    (0..out.len()).filter(|p| which(p % ld, p / ld)).for_each(|p| out[p] = 0.0);
}

#[test]
fn wrong_writes() {
    for routine in reference::ROUTINES {
        let writes_nothing = |call: &Call, a: &[f64], b: &[f64], out: &mut [f64]| direct(call, a, b, &mut out.to_vec());
        assert!(told_apart(routine, &writes_nothing).is_some());

        let fills_zeros = |call: &Call, a: &[f64], b: &[f64], out: &mut [f64]| {
            let done = direct(call, a, b, out);
            let (rows, cols) = call.shape_of_output();
            clear(call, out, |i, j| done.number == 0 && i < rows as usize && j < cols as usize);
            done
        };
        assert!(told_apart(routine, &fills_zeros).is_some());

        let writes_padding = |call: &Call, a: &[f64], b: &[f64], out: &mut [f64]| {
            let done = direct(call, a, b, out);
            let rows = call.shape_of_output().0;
            clear(call, out, |i, j| done.number == 0 && i == rows as usize && j == 0);
            done
        };
        assert!(told_apart(routine, &writes_padding).is_some());

        let refuses_empty = |call: &Call, a: &[f64], b: &[f64], out: &mut [f64]| {
            let done = direct(call, a, b, out);
            if done.number == 0 && call.empty() {
                Done::of(3)
            } else {
                done
            }
        };
        assert!(told_apart(routine, &refuses_empty).is_some());
        assert_eq!(told_apart(routine, &direct), None);
    }
}

#[test]
fn other_triangle_cleared() {
    for routine in [Routine::Syrk, Routine::Syr2k] {
        let wrong = |call: &Call, a: &[f64], b: &[f64], c: &mut [f64]| {
            let done = direct(call, a, b, c);
            let n = call.n as usize;
            clear(call, c, |i, j| done.number == 0 && i < n && j < n && i != j && (i < j) != call.upper());
            done
        };
        assert!(told_apart(routine, &wrong).is_some());
    }
}

#[test]
fn diagonal_left_out() {
    for routine in [Routine::Syrk, Routine::Syr2k] {
        let wrong = |call: &Call, a: &[f64], b: &[f64], c: &mut [f64]| {
            let old = c.to_vec();
            let done = direct(call, a, b, c);
            let ld = call.ldc as usize;
            (0..c.len()).filter(|p| p % ld == p / ld).for_each(|p| c[p] = old[p]);
            done
        };
        assert!(told_apart(routine, &wrong).is_some());
    }
}

#[test]
fn wrong_options() {
    let flipped = |code: i32, to: char, or: char| if reference::is(code, to) { or as i32 } else { to as i32 };
    for routine in [Routine::Symm, Routine::Syrk, Routine::Syr2k, Routine::Trmm, Routine::Trsm] {
        let other_triangle = |call: &Call, a: &[f64], b: &[f64], out: &mut [f64]| {
            direct(&Call { uplo: flipped(call.uplo, 'L', 'U'), ..*call }, a, b, out)
        };
        assert!(told_apart(routine, &other_triangle).is_some());
    }
    for routine in [Routine::Trmm, Routine::Trsm] {
        let other_diagonal = |call: &Call, a: &[f64], b: &[f64], out: &mut [f64]| {
            direct(&Call { diag: flipped(call.diag, 'U', 'N'), ..*call }, a, b, out)
        };
        assert!(told_apart(routine, &other_diagonal).is_some());
    }
    for routine in [Routine::Gemm, Routine::Syrk, Routine::Syr2k, Routine::Trmm, Routine::Trsm] {
        let c_as_n = |call: &Call, a: &[f64], b: &[f64], out: &mut [f64]| {
            let transa = if reference::is(call.transa, 'C') { 'N' as i32 } else { call.transa };
            direct(&Call { transa, ..*call }, a, b, out)
        };
        assert!(told_apart(routine, &c_as_n).is_some());
    }
}

/// The call with other leading dimensions, each made of what it was and the rows of its matrix.
fn with_leading(call: &Call, leading: fn(i32, i32) -> i32) -> Call {
    let (a, b, c) = (call.stored_a().0, call.stored_b().0, call.shape_of_output().0);
    Call { lda: leading(call.lda, a), ldb: leading(call.ldb, b), ldc: leading(call.ldc, c), ..*call }
}

#[test]
fn wrong_leading_dimensions() {
    for routine in reference::ROUTINES {
        let one_above_the_rows = |call: &Call, a: &[f64], b: &[f64], out: &mut [f64]| {
            let call = with_leading(call, |ld, rows| if ld == rows { ld - 1 } else { ld });
            direct(&call, a, b, out)
        };
        assert!(told_apart(routine, &one_above_the_rows).is_some());

        let zero_without_rows = |call: &Call, a: &[f64], b: &[f64], out: &mut [f64]| {
            let call = with_leading(call, |ld, rows| if rows == 0 { ld.max(1) } else { ld });
            direct(&call, a, b, out)
        };
        assert!(told_apart_by(calls::without_rows, routine, &zero_without_rows));
    }
}

#[test]
fn wrong_widths() {
    for routine in reference::ROUTINES {
        let refused = |w: i32| if w == 0 { 65 } else { w };
        let width_0_refused = |call: &Call, a: &[f64], b: &[f64], out: &mut [f64]| {
            direct(&Call { w: refused(call.w), ..*call }, a, b, out)
        };
        let block_size_0_refused = |call: &Call, a: &[f64], b: &[f64], out: &mut [f64]| {
            direct(&Call { r: refused(call.r), ..*call }, a, b, out)
        };
        assert!(told_apart(routine, &width_0_refused).is_some());
        assert!(told_apart(routine, &block_size_0_refused).is_some());

        let negative_taken = |call: &Call, a: &[f64], b: &[f64], out: &mut [f64]| {
            direct(&Call { w: call.w.max(0), r: call.r.max(0), ..*call }, a, b, out)
        };
        for (w, r) in [(-1, 0), (0, -1)] {
            let case = accepted(&mut Random::of("negative widths", 0), routine, |call| (call.w, call.r) = (w, r));
            assert!(compare(&case, &negative_taken, &direct).is_err());
        }
    }
}

#[test]
fn syr2k_that_alternates_panels() {
    let wrong = |call: &Call, a: &[f64], b: &[f64], c: &mut [f64]| {
        let number = check(call, a.len(), b.len(), c.len());
        if number != 0 || call.start_only() {
            return direct(call, a, b, c);
        }
        let (n, k, r) = (call.n as usize, call.k as usize, width(call.r) as usize);
        let op_a = |i, l| op(call.transposed_a(), a, call.lda, i, l);
        let op_b = |i, l| op(call.transposed_a(), b, call.ldb, i, l);
        for (i, j) in (0..n * n).map(|p| (p % n, p / n)).filter(|(i, j)| i == j || (i < j) == call.upper()) {
            let place = j * call.ldc as usize + i;
            let mut e = start(call.beta, c[place]);
            for from in (0..k).step_by(r) {
                let panel = from..k.min(from + r);
                e = panel.clone().fold(e, |e, l| add(call, e, (op_a(i, l), op_b(j, l))));
                e = panel.fold(e, |e, l| add(call, e, (op_b(i, l), op_a(j, l))));
            }
            c[place] = e;
        }
        Done::of(0)
    };
    assert!(told_apart(Routine::Syr2k, &wrong).is_some());
}

#[test]
fn syr2k_with_its_products_swapped() {
    let wrong = |call: &Call, a: &[f64], b: &[f64], c: &mut [f64]| {
        let number = check(call, a.len(), b.len(), c.len());
        if number == 0 {
            direct(&Call { lda: call.ldb, ldb: call.lda, ..*call }, b, a, c);
        }
        Done::of(number)
    };
    assert!(told_apart(Routine::Syr2k, &wrong).is_some());
}

#[test]
fn trsm_with_ascending_terms_in_a_backward_solve() {
    let wrong = |call: &Call, a: &[f64], b: &[f64], out: &mut [f64]| {
        let backward = !call.right() && call.upper() && !call.transposed_a();
        if !backward || call.start_only() || check(call, a.len(), b.len(), out.len()) != 0 {
            return direct(call, a, b, out);
        }
        for j in 0..call.n as usize {
            for i in (0..call.m as usize).rev() {
                let mut e = call.alpha * entry(out, call.ldb, i, j);
                for l in i + 1..call.m as usize {
                    e += -entry(out, call.ldb, l, j) * entry(a, call.lda, i, l);
                }
                let diagonal = if call.unit() { 1.0 } else { entry(a, call.lda, i, i) };
                out[j * call.ldb as usize + i] = e / diagonal;
            }
        }
        Done { number: 0, zero: zero(call, a) }
    };
    assert!(told_apart(Routine::Trsm, &wrong).is_some());
}

#[test]
fn trmm_that_reads_what_it_has_written() {
    let wrong = |call: &Call, a: &[f64], b: &[f64], out: &mut [f64]| {
        let below = !call.right() && !call.upper() && !call.transposed_a();
        if !below || call.start_only() || check(call, a.len(), b.len(), out.len()) != 0 {
            return direct(call, a, b, out);
        }
        for j in 0..call.n as usize {
            for i in 0..call.m as usize {
                let u = |l| if l == i && call.unit() { 1.0 } else { entry(a, call.lda, i, l) };
                let e = (0..=i).fold(0.0, |e, l| add(call, e, (u(l), entry(out, call.ldb, l, j))));
                out[j * call.ldb as usize + i] = e;
            }
        }
        Done::of(0)
    };
    assert!(told_apart(Routine::Trmm, &wrong).is_some());
}

#[test]
fn trsm_that_multiplies_by_the_reciprocal() {
    let wrong = |call: &Call, a: &[f64], b: &[f64], out: &mut [f64]| {
        let forward = !call.right() && !call.upper() && !call.transposed_a() && !call.unit();
        if !forward || call.start_only() || check(call, a.len(), b.len(), out.len()) != 0 {
            return direct(call, a, b, out);
        }
        for j in 0..call.n as usize {
            for i in 0..call.m as usize {
                let start = call.alpha * entry(out, call.ldb, i, j);
                let term = |e, l| e + -entry(out, call.ldb, l, j) * entry(a, call.lda, i, l);
                let e: f64 = (0..i).fold(start, term);
                out[j * call.ldb as usize + i] = e * (1.0 / entry(a, call.lda, i, i));
            }
        }
        Done { number: 0, zero: zero(call, a) }
    };
    assert!(told_apart(Routine::Trsm, &wrong).is_some());
}

/// Whether a solve with this number looks for a zero.
type Looks = fn(&Call, i32) -> bool;

/// The index that a solve reports, from the diagonal of A.
type Report = fn(&Call, &[f64]) -> Option<usize>;

/// TRSM with another report.
fn trsm(looks: Looks, report: Report) -> impl Fn(&Call, &[f64], &[f64], &mut [f64]) -> Done {
    move |call, a, b, out| {
        let number = direct(call, a, b, out).number;
        let order = call.stored_a().0 as usize;
        let diagonal: Vec<f64> = a.iter().copied().step_by(call.lda as usize + 1).take(order).collect();
        let zero = if looks(call, number) { report(call, &diagonal) } else { None };
        Done { number, zero: zero.map_or(-1, |index| index as i32) }
    }
}

/// The call is accepted and divides.
fn divides(call: &Call, number: i32) -> bool {
    number == 0 && !call.unit() && call.alpha != 0.0 && !call.empty()
}

fn lowest(_: &Call, diagonal: &[f64]) -> Option<usize> {
    diagonal.iter().position(|&x| x == 0.0)
}

fn highest(_: &Call, diagonal: &[f64]) -> Option<usize> {
    diagonal.iter().rposition(|&x| x == 0.0)
}

fn first_solved(call: &Call, diagonal: &[f64]) -> Option<usize> {
    let up = call.right() == (call.upper() != call.transposed_a());
    if up {
        lowest(call, diagonal)
    } else {
        highest(call, diagonal)
    }
}

fn lowest_of_the_last_block(call: &Call, diagonal: &[f64]) -> Option<usize> {
    let block = width(call.r) as usize;
    let first = highest(call, diagonal)? / block * block;
    lowest(call, &diagonal[first..]).map(|index| first + index)
}

fn lowest_in_its_block(call: &Call, diagonal: &[f64]) -> Option<usize> {
    lowest(call, diagonal).map(|index| index % width(call.r) as usize)
}

fn counted_from_1(call: &Call, diagonal: &[f64]) -> Option<usize> {
    lowest(call, diagonal).map(|index| index + 1)
}

fn positive_zeros(_: &Call, diagonal: &[f64]) -> Option<usize> {
    diagonal.iter().position(|&x| x.to_bits() == 0)
}

fn subnormal_numbers_too(_: &Call, diagonal: &[f64]) -> Option<usize> {
    diagonal.iter().position(|x| x.abs() < f64::MIN_POSITIVE)
}

fn nans_too(_: &Call, diagonal: &[f64]) -> Option<usize> {
    diagonal.iter().position(|&x| x == 0.0 || x.is_nan())
}

#[test]
fn wrong_reports() {
    let told_apart = |looks, report| told_apart_by(calls::zeros_on_the_diagonal, Routine::Trsm, &trsm(looks, report));
    let wrong: [(&str, Report); 8] = [
        ("the highest", highest),
        ("the first in the order of solving", first_solved),
        ("the lowest of the last block", lowest_of_the_last_block),
        ("the lowest in its block", lowest_in_its_block),
        ("counted from 1", counted_from_1),
        ("+0.0 alone", positive_zeros),
        ("subnormal numbers too", subnormal_numbers_too),
        ("NaNs too", nans_too),
    ];
    for (name, report) in wrong {
        assert!(told_apart(divides, report), "{name}");
    }
    let wrong: [(&str, Looks); 4] = [
        ("a unit diagonal", |call, number| number == 0 && call.alpha != 0.0 && !call.empty()),
        ("alpha zero", |call, number| number == 0 && !call.unit() && !call.empty()),
        ("m or n zero", |call, number| number == 0 && !call.unit() && call.alpha != 0.0),
        ("a refused call", |call, _| !call.unit() && call.alpha != 0.0 && !call.empty()),
    ];
    for (name, looks) in wrong {
        assert!(told_apart(looks, lowest), "{name}");
    }
    assert!(!told_apart(divides, lowest));
}
