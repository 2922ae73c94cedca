//! The library and the reference agree on integer solutions: on X, on whether there is one, and on the numbers of
//! refused systems.

use compare::isolve::calls::{self, Calls};
use compare::isolve::{hold, Case};
use compare::Random;
use reference::{is, isolve};
use std::cmp::Ordering::{Equal, Greater, Less};
use std::collections::{BTreeMap, BTreeSet};

/// All systems of a test hand this back.
fn all_give(calls: Calls, number: i32) {
    calls(&mut |test, index, make| assert_eq!(hold(test, index, make), number, "{test}, case {index}"));
}

/// The systems of a test hand back these numbers, each of them at least so many times.
fn give(calls: Calls, numbers: &[i32], least: u32) {
    let mut counts = BTreeMap::new();
    calls(&mut |test, index, make| *counts.entry(hold(test, index, make)).or_insert(0) += 1);
    assert_eq!(counts.keys().copied().collect::<Vec<i32>>(), numbers);
    assert!(counts.values().all(|&count| count >= least), "{counts:?}");
}

#[test]
fn systems_with_a_solution() {
    all_give(calls::with_a_solution, 0);
}

#[test]
fn systems_in_which_an_unknown_would_be_a_fraction() {
    all_give(calls::with_a_fraction, -1);
}

#[test]
fn systems_in_which_an_unknown_would_be_too_large() {
    all_give(calls::above, -1);
}

#[test]
fn systems_in_which_an_unknown_would_be_too_small() {
    all_give(calls::below, -1);
}

#[test]
fn one_equation_off_by_one() {
    give(calls::one_equation_off, &[-1, 0], 10);
}

#[test]
fn sums_beyond_32_bits() {
    all_give(calls::beyond_32_bits, -1);
}

#[test]
fn all_small_systems() {
    give(calls::small, &[-1, 0], 5000);
}

#[test]
fn twenty_thousand_random_systems() {
    give(calls::random, &[-1, 0, 39, 40, 41], 1);
}

#[test]
fn every_code_is_accepted_or_refused_as_it_should_be() {
    let mut accepted = BTreeSet::new();
    calls::codes(&mut |test, index, make| {
        let number = hold(test, index, make);
        assert!(number == 0 || number == 39);
        if number == 0 {
            accepted.insert(make(&mut Random::of(test, index)).uplo);
        }
    });
    assert_eq!(accepted, "LlUu".bytes().map(i32::from).collect());
}

#[test]
fn an_order_is_good_from_1_to_64() {
    calls::orders(&mut |test, index, make| {
        let n = make(&mut Random::of(test, index)).n;
        let expected = if (1..=64).contains(&n) { 0 } else { 39 };
        assert_eq!(hold(test, index, make), expected, "order {n}");
    });
}

#[test]
fn the_first_of_several_bad_arguments_counts() {
    calls::bad_arguments(&mut |test, index, make| {
        let bad = calls::which_are_bad(index);
        assert_eq!(hold(test, index, make), bad[0].0, "bad {bad:?}");
    });
}

/// Kinds of systems, and whether one is of them.
type Kinds<const COUNT: usize> = [(&'static str, bool); COUNT];

/// Each kind comes up among the systems of a test. `kinds` is told a system, its number and the X that it has left.
fn all_come_up<const COUNT: usize>(calls: Calls, kinds: fn(&Case, i32, &[i16]) -> Kinds<COUNT>) {
    let mut counts = BTreeMap::new();
    calls(&mut |test, index, make| {
        let case = make(&mut Random::of(test, index));
        let mut x = case.x[0].clone();
        let number = isolve(case.uplo, case.n, &case.a[0], &case.b, &mut x);
        for (kind, is) in kinds(&case, number, &x) {
            *counts.entry(kind).or_insert(0) += is as u32;
        }
    });
    assert!(counts.values().all(|&count| count > 0), "{counts:?}");
}

/// Entry (i, j) is read.
fn reads(case: &Case, i: usize, j: usize) -> bool {
    i == j || (i < j) == is(case.uplo, 'U')
}

/// A sum of products in one of the equations, in the order of the columns, is beyond 32 bits.
fn has_a_large_sum(case: &Case, x: &[i16]) -> bool {
    let n = x.len();
    (0..n).any(|i| {
        let mut sum = 0;
        (0..n).filter(|&j| reads(case, i, j)).any(|j| {
            sum += case.a[0][j * n + i] as i64 * x[j] as i64;
            i32::try_from(sum).is_err()
        })
    })
}

#[test]
fn every_kind_of_solution_comes_up() {
    all_come_up(calls::with_a_solution, |case, _, x| {
        let (a, n) = (&case.a[0], x.len());
        let unread: Vec<i16> = (0..n * n).filter(|p| !reads(case, p % n, p / n)).map(|p| a[p]).collect();
        let zeros = unread.iter().filter(|&&entry| entry == 0).count();
        [
            ("the least unknown", x.contains(&i16::MIN)),
            ("the greatest unknown", x.contains(&i16::MAX)),
            ("unknowns of either sign", x.iter().any(|&x| x < 0) && x.iter().any(|&x| x > 0)),
            ("the least entry on the diagonal", (0..n).any(|i| a[i * n + i] == i16::MIN)),
            ("the greatest entry on the diagonal", (0..n).any(|i| a[i * n + i] == i16::MAX)),
            ("a large sum on the way", has_a_large_sum(case, x)),
            ("zeros where nothing is read", n > 1 && zeros == unread.len()),
            ("no zero where nothing is read", n > 1 && zeros == 0),
        ]
    });
}

/// The equation that is solved first fails, though its entry on the diagonal is not zero.
fn fails_at_first(case: &Case) -> bool {
    let n = case.b.len();
    let first = if is(case.uplo, 'U') { n - 1 } else { 0 };
    case.b[first].checked_rem(case.a[0][first * n + first]).is_some_and(|remainder| remainder != 0)
}

#[test]
fn every_kind_of_refusal_comes_up() {
    all_come_up(calls::bad_arguments, |case, number, x| {
        let good_code = is(case.uplo, 'L') || is(case.uplo, 'U');
        let (a, n) = (&case.a[0], case.n.clamp(0, 64) as usize);
        let lengths = [a.len().cmp(&(n * n)), case.b.len().cmp(&n), x.len().cmp(&n)];
        let by_lists = |expected| number == 40 && lengths == expected;
        let (first, last) = (a.first() == Some(&0), a.last() == Some(&0));
        [
            ("39 by the code", number == 39 && (1..=64).contains(&case.n)),
            ("39 by the order", number == 39 && good_code),
            ("40 by a shorter A", by_lists([Less, Equal, Equal])),
            ("40 by a longer A", by_lists([Greater, Equal, Equal])),
            ("40 by a shorter B", by_lists([Equal, Less, Equal])),
            ("40 by a longer B", by_lists([Equal, Greater, Equal])),
            ("40 by a shorter X", by_lists([Equal, Equal, Less])),
            ("40 by a longer X", by_lists([Equal, Equal, Greater])),
            ("41 at the beginning alone", number == 41 && first && !last),
            ("41 between", number == 41 && !first && !last),
            ("41 at the end alone", number == 41 && last && !first),
            ("41 behind an equation that fails", number == 41 && fails_at_first(case)),
        ]
    });
}
