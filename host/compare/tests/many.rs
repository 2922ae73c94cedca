//! The library and the reference agree on GEMM of many items: on every C, the pack area, the elements copied and the
//! numbers of refused calls.

use compare::many::calls::{self, Calls};
use compare::many::{accepted, hold, library, spoiled, Argument, Case, ARGUMENTS};
use compare::Random;
use reference::{needed, Call, Many, ManyDone};
use std::collections::{BTreeMap, BTreeSet};
use thamrunlek::raw;

/// Makes the calls of a test, and expects each to be accepted and to have the reference's bits.
fn agree(calls: Calls) {
    calls(&mut |test, index, make| {
        assert_eq!(hold(test, index, make).number, 0, "{test}, case {index} is refused");
    });
}

#[test]
fn all_options_and_sizes() {
    agree(calls::options_and_sizes);
}

#[test]
fn all_widths_and_block_sizes() {
    agree(calls::widths_and_block_sizes);
}

#[test]
fn twenty_thousand_random_calls() {
    agree(calls::random);
}

#[test]
fn sizes_around_multiples_of_64() {
    agree(calls::around_multiples_of_64);
}

#[test]
fn a_thousand_items() {
    agree(calls::a_thousand_items);
}

/// Every kind of call comes up among those above: with and without a copy, one column that is copied, one B for all
/// items, B that overlap, C close together and apart, and a pack area that is exact, longer, absent and not needed.
#[test]
fn every_kind_of_call_comes_up() {
    let mut kinds = BTreeMap::new();
    for calls in [calls::options_and_sizes, calls::random] as [Calls; 2] {
        calls(&mut |test, index, make| {
            let Case { many, pack, .. } = make(&mut Random::of(test, index));
            let (copied, pack, several) = (many.copied(), pack[0].len(), many.items > 1 && many.reads_a());
            let (b, c) = (many.gemm().stored_b(), needed(many.call.ldc, many.call.m, many.call.n) as i32);
            let overlap = many.b_stride > 0 && (many.b_stride as usize) < needed(many.call.ldb, b.0, b.1);
            for (kind, is) in [
                ("A in its own place", many.reads_a() && copied == 0),
                ("a copy into an exact pack area", copied > 0 && pack == copied),
                ("a copy into a longer pack area", pack > copied && copied > 0),
                ("one column copied", copied > 0 && many.call.k == 1),
                ("no pack area", many.reads_a() && pack == 0),
                ("no items", many.items == 0),
                ("no items, and an array that would be too short", many.items == 0 && pack == 0 && c > 0),
                ("no terms", many.items > 0 && !many.gemm().empty() && many.gemm().start_only()),
                ("one B for all", several && many.b_stride == 0),
                ("B that overlap", several && overlap),
                ("C close together", several && many.c_stride == c),
                ("C apart", several && many.c_stride > c),
            ] {
                *kinds.entry(kind).or_insert(0) += is as i32;
            }
        });
    }
    assert!(kinds.values().all(|&count| count > 0), "{kinds:?}");
}

/// Every C has the bits that a direct call of its own leaves in it.
#[test]
fn every_c_is_what_its_own_gemm_gives() {
    calls::random(&mut |test, index, make| {
        let Case { many, a, b, c, pack } = make(&mut Random::of(test, index));
        let [mut left, mut right, mut pack] = [&c[0], &c[0], &pack[0]].map(Vec::clone);
        assert_eq!(library(&many, &a[0], &b[0], &mut left, &mut pack).number, 0);
        for i in 0..many.items as usize {
            let Call { transb, m, n, k, alpha, beta, lda, ldb, ldc, w, r, .. } = many.call;
            let b = b[0].get(i * many.b_stride as usize..).unwrap_or(&[]);
            let c = right.get_mut(i * many.c_stride as usize..).unwrap_or(&mut []);
            let number = raw::gemm('N' as i32, transb, m, n, k, alpha, &a[0], lda, b, ldb, beta, c, ldc, w, r);
            assert_eq!(number, 0);
        }
        let same = |(x, y): (&f64, &f64)| x.to_bits() == y.to_bits() || (x.is_nan() && y.is_nan());
        assert!(left.iter().zip(&right).all(same), "{test}, case {index}");
    });
}

/// A sound case with these arguments spoiled gives the number of the first, and has copied nothing.
fn refused(test: &str, index: u64, bad: &[(i32, Argument)]) -> i32 {
    let arguments: Vec<Argument> = bad.iter().map(|&(_, argument)| argument).collect();
    let done = hold(test, index, |random| spoiled(random, &arguments));
    assert_eq!(done, ManyDone { number: bad[0].0, copied: 0 }, "bad {bad:?}");
    done.number
}

#[test]
fn each_bad_argument_has_its_number() {
    let mut counts = BTreeMap::new();
    for (place, bad) in ARGUMENTS.into_iter().enumerate() {
        for round in 0..100 {
            let number = refused("one bad of many", 100 * place as u64 + round, &[bad]);
            *counts.entry(number).or_insert(0) += 1;
        }
    }
    let once = [2, 3, 4, 5, 7, 8, 9, 10, 12, 13, 42, 44].map(|number| (number, 100));
    assert_eq!(counts, once.into_iter().chain([(30, 200), (43, 200)]).collect());
}

#[test]
fn the_first_of_several_bad_arguments_counts() {
    calls::bad_arguments(&mut |test, index, make| {
        let bad = calls::which_are_bad(index);
        let expected = ManyDone { number: bad[0].0, copied: 0 };
        assert_eq!(hold(test, index, make), expected, "bad {bad:?}");
    });
    for index in 0..1000 {
        let mut random = Random::of("which are bad", index);
        let mut bad = ARGUMENTS.to_vec();
        bad.retain(|_| random.once_in(4));
        if !bad.is_empty() {
            refused("some bad of many", index, &bad);
        }
    }
}

/// Every number comes up at the ends of the range, and so do accepted calls.
#[test]
fn numbers_from_the_ends_of_their_range() {
    let mut counts = BTreeMap::new();
    calls::ends_of_the_range(&mut |test, index, make| {
        *counts.entry(hold(test, index, make).number).or_insert(0) += 1;
    });
    let numbers: BTreeSet<i32> = ARGUMENTS.into_iter().map(|(number, _)| number).chain([0]).collect();
    assert_eq!(counts.keys().copied().collect::<BTreeSet<i32>>(), numbers);
    assert!(counts.values().all(|&count| count > 50), "{counts:?}");
}

/// The number of a call of 3 by 2 times 2 by 2 on arrays of these lengths, held against the reference.
fn number(fix: impl Fn(&mut Many), [a, b, c, pack]: [usize; 4]) -> i32 {
    let done = hold("by hand", 0, |random| {
        let mut case = accepted(random, |many| {
            (many.call.m, many.call.n, many.call.k) = (3, 2, 2);
            (many.call.alpha, many.call.transb, many.items) = (1.0, 'N' as i32, 4);
        });
        let many = &mut case.many;
        (many.call.lda, many.call.ldb, many.call.ldc, many.b_stride, many.c_stride) = (4, 2, 5, 4, 9);
        fix(many);
        for (arrays, len) in [(&mut case.a, a), (&mut case.b, b), (&mut case.c, c), (&mut case.pack, pack)] {
            *arrays = [(); 2].map(|_| vec![0.5; len]);
        }
        case
    });
    done.number
}

/// A needs 7 elements, the four B 16, the four C 35 and the pack area 6.
const EXACT: [usize; 4] = [7, 16, 35, 6];

#[test]
fn a_count_is_good_from_0_to_1000() {
    for items in (-3..=1003).chain([i32::MIN, i32::MAX]) {
        let number = number(|many| (many.items, many.b_stride, many.c_stride) = (items, 0, 8), [7, 4, 8000, 6]);
        assert_eq!(number, if (0..=1000).contains(&items) { 0 } else { 42 }, "{items} items");
    }
}

/// The stride of C is tested without items too, and where C is empty no stride is too small.
#[test]
fn a_stride_of_c_is_good_from_the_needed_length_on() {
    for stride in -2..=11 {
        let expected = |least: i32| if stride < least { 43 } else { 0 };
        for items in [0, 1, 4] {
            assert_eq!(number(|many| (many.items, many.c_stride) = (items, stride), [7, 16, 44, 6]), expected(8));
            let empty = number(|many| (many.items, many.c_stride, many.call.n) = (items, stride, 0), EXACT);
            assert_eq!(empty, expected(0));
            let of_b = number(|many| (many.items, many.b_stride) = (items, stride), [7, 40, 35, 6]);
            assert_eq!(of_b, expected(0));
        }
    }
}

/// An array has to have what its last item needs, unless there are no items; the pack area, what is copied.
#[test]
fn arrays_are_tested_for_their_last_item() {
    assert_eq!(number(|_| (), EXACT), 0);
    for (array, expected) in [7, 9, 12, 44].into_iter().enumerate() {
        let mut lengths = EXACT;
        lengths[array] -= 1;
        assert_eq!(number(|_| (), lengths), expected);
        assert_eq!(number(|many| many.items = 0, lengths), 0);
        lengths[array..].fill(0);
        assert_eq!(number(|_| (), lengths), expected);
        lengths[array + 1..].fill(40);
        assert_eq!(number(|_| (), lengths), expected);
    }
    assert_eq!(number(|many| many.items = 0, [0; 4]), 0);
    assert_eq!(number(|many| many.call.alpha = -0.0, [0, 0, 35, 0]), 0);
    assert_eq!(number(|many| many.call.k = 0, [0, 0, 34, 0]), 12);
    assert_eq!(number(|many| many.call.lda = 3, [6, 16, 35, 0]), 0);
    assert_eq!(number(|many| many.call.k = 1, [3, 15, 35, 2]), 44);
    assert_eq!(number(|many| many.call.k = 1, [3, 15, 35, 3]), 0);
}
