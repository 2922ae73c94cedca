//! The library refuses what documents 01 and 02 refuse, with their numbers and in their order, and nothing else; and a
//! refused solve reports no zero.

use compare::{accepted, calls, compare, hold, library, Case, Random};
use reference::{direct, needed, Call, Done, Routine, ROUTINES};
use std::collections::BTreeSet;

#[derive(Clone, Copy, Debug, PartialEq)]
enum Argument {
    W,
    R,
    Side,
    Uplo,
    Transa,
    Transb,
    Diag,
    M,
    N,
    K,
    Lda,
    Ldb,
    Ldc,
    A,
    B,
    C,
}
use Argument::*;

/// The arguments of each routine that can be bad, in the order in which they are tested, with their numbers.
fn arguments(routine: Routine) -> Vec<(i32, Argument)> {
    let mut arguments = vec![(30, W), (30, R)];
    arguments.extend_from_slice(match routine {
        Routine::Gemm => {
            &[(1, Transa), (2, Transb), (3, M), (4, N), (5, K), (8, Lda), (10, Ldb), (13, Ldc), (7, A), (9, B), (12, C)]
                [..]
        }
        Routine::Symm => {
            &[(1, Side), (2, Uplo), (3, M), (4, N), (7, Lda), (9, Ldb), (12, Ldc), (6, A), (8, B), (11, C)]
        }
        Routine::Syrk => &[(1, Uplo), (2, Transa), (3, N), (4, K), (7, Lda), (10, Ldc), (6, A), (9, C)],
        Routine::Syr2k => {
            &[(1, Uplo), (2, Transa), (3, N), (4, K), (7, Lda), (9, Ldb), (12, Ldc), (6, A), (8, B), (11, C)]
        }
        Routine::Trmm | Routine::Trsm => {
            &[(1, Side), (2, Uplo), (3, Transa), (4, Diag), (5, M), (6, N), (9, Lda), (11, Ldb), (8, A), (10, B)]
        }
    });
    arguments
}

/// An accepted call in which every argument is tested. The A of a solve has a zero on the diagonal.
fn sound(random: &mut Random, routine: Routine) -> Case {
    let (m, n, k) = (random.from(1, 6), random.from(1, 6), random.from(1, 6));
    let mut case = accepted(random, routine, |call| *call = Call { m, n, k, alpha: 1.5, ..*call });
    if routine == Routine::Trsm {
        case.a.iter_mut().for_each(|a| a[0] = 0.0);
    }
    case
}

/// A bad leading dimension for so many rows.
fn bad_leading(random: &mut Random, rows: i32) -> i32 {
    random.pick(&[rows - 1, rows - 1, -1, i32::MIN])
}

/// One element less than is needed, or none at all.
fn shorten(random: &mut Random, arrays: &mut [Vec<f64>; 2], ld: i32, (rows, cols): (i32, i32)) {
    let len = random.pick(&[needed(ld, rows, cols) - 1, 0]);
    arrays.iter_mut().for_each(|array| array.truncate(len));
}

/// Makes one argument of a sound case bad; `was` is the sound call.
fn spoil(random: &mut Random, case: &mut Case, was: &Call, argument: Argument) {
    let call = &mut case.call;
    let bad_width = random.pick(&[-1, -64, 65, 128, i32::MIN, i32::MAX]);
    let bad_code = random.pick(&[0, 88, 'A' as i32, -1, i32::MAX, 256 + 'N' as i32]);
    let bad_size = random.pick(&[-1, -2, i32::MIN]);
    match argument {
        W => call.w = bad_width,
        R => call.r = bad_width,
        Side => call.side = random.pick(&[bad_code, 'U' as i32]),
        Uplo => call.uplo = random.pick(&[bad_code, 'R' as i32]),
        Transa => call.transa = random.pick(&[bad_code, 'L' as i32]),
        Transb => call.transb = random.pick(&[bad_code, 'U' as i32]),
        Diag => call.diag = random.pick(&[bad_code, 'L' as i32]),
        M => call.m = bad_size,
        N => call.n = bad_size,
        K => call.k = bad_size,
        Lda => call.lda = bad_leading(random, was.stored_a().0),
        Ldb => call.ldb = bad_leading(random, was.stored_b().0),
        Ldc => call.ldc = bad_leading(random, was.shape_of_output().0),
        A => shorten(random, &mut case.a, was.lda, was.stored_a()),
        B if was.routine.in_place() => shorten(random, &mut case.out, was.ldb, was.stored_b()),
        B => shorten(random, &mut case.b, was.ldb, was.stored_b()),
        C => shorten(random, &mut case.out, was.ldc, was.shape_of_output()),
    }
}

/// A sound case with these arguments spoiled gives the number of the first, and no zero.
fn refused(test: &str, index: u64, routine: Routine, bad: &[(i32, Argument)]) {
    let done = hold(test, index, |random| {
        let mut case = sound(random, routine);
        let was = case.call;
        bad.iter().for_each(|&(_, argument)| spoil(random, &mut case, &was, argument));
        case
    });
    assert_eq!(done, Done::of(bad[0].0), "{routine:?} with bad {bad:?}");
}

#[test]
fn each_bad_argument_has_its_number() {
    for routine in ROUTINES {
        for (bad, place) in arguments(routine).iter().zip(0..) {
            for round in 0..100 {
                refused(&format!("one bad {routine:?}"), 100 * place + round, routine, &[*bad]);
            }
        }
    }
}

#[test]
fn the_first_of_several_bad_arguments_counts() {
    for routine in ROUTINES {
        let arguments = arguments(routine);
        let mut index = 0;
        for first in 0..arguments.len() {
            for second in first + 1..arguments.len() {
                for _ in 0..10 {
                    refused(&format!("two bad {routine:?}"), index, routine, &[arguments[first], arguments[second]]);
                    index += 1;
                }
            }
        }
        for index in 0..1000 {
            let mut random = Random::of("which are bad", index);
            let mut bad = arguments.clone();
            bad.retain(|_| random.once_in(3));
            if !bad.is_empty() {
                refused(&format!("some bad {routine:?}"), index, routine, &bad);
            }
        }
    }
}

#[test]
fn every_code_is_accepted_or_refused_as_it_should_be() {
    for routine in ROUTINES {
        for (number, argument) in arguments(routine) {
            let letters = match argument {
                Side => "LlRr",
                Uplo => "LlUu",
                Transa | Transb => "NnTtCc",
                Diag => "UuNn",
                _ => continue,
            };
            for code in (-300..600).chain([i32::MIN, i32::MAX]) {
                let case = accepted(&mut Random::of("codes", code as u64), routine, |call| {
                    let place = match argument {
                        Side => &mut call.side,
                        Uplo => &mut call.uplo,
                        Transa => &mut call.transa,
                        Transb => &mut call.transb,
                        _ => &mut call.diag,
                    };
                    *place = code;
                });
                let good = u8::try_from(code).is_ok_and(|code| letters.contains(code as char));
                let expected = if good { 0 } else { number };
                let number = compare(&case, &library, &direct).map(|done| done.number);
                assert_eq!(number, Ok(expected), "{routine:?}, {argument:?} {code}");
            }
        }
    }
}

#[test]
fn numbers_from_the_ends_of_their_range() {
    for routine in ROUTINES {
        let mut accepted = 0;
        calls::ends_of_the_range(routine, &mut |test, index, make| {
            accepted += (hold(test, index, make).number == 0) as i32;
        });
        assert!(accepted > 500, "{routine:?}: {accepted}");
    }
}

/// The leading dimension of a matrix without rows is bad if it is 0 and good if it is 1.
#[test]
fn a_leading_dimension_is_good_from_1_on() {
    for routine in ROUTINES {
        let mut numbers = BTreeSet::new();
        calls::without_rows(routine, &mut |test, index, make| {
            let call = make(&mut Random::of(test, index)).call;
            let is_zero = |argument| match argument {
                Lda => call.lda == 0,
                Ldb => call.ldb == 0,
                Ldc => call.ldc == 0,
                _ => false,
            };
            let bad = arguments(routine).into_iter().find(|&(_, argument)| is_zero(argument));
            let expected = bad.map_or(0, |(number, _)| number);
            assert_eq!(hold(test, index, make).number, expected, "{call:?}");
            numbers.insert(expected);
        });
        let of_leading = |&(_, argument): &(i32, Argument)| matches!(argument, Lda | Ldb | Ldc);
        let all = arguments(routine).into_iter().filter(of_leading).map(|(number, _)| number);
        assert_eq!(numbers, all.chain([0]).collect());
    }
}

#[test]
fn a_width_is_good_from_0_to_64() {
    for routine in ROUTINES {
        for w in (-70..=140).chain([i32::MIN, i32::MAX]) {
            for (index, other) in [0, 1, 64].into_iter().enumerate() {
                let expected = if (0..=64).contains(&w) { 0 } else { 30 };
                let done = hold("widths", index as u64, |random| {
                    accepted(random, routine, |call| (call.w, call.r) = (w, other))
                });
                assert_eq!(done.number, expected, "{routine:?}, w {w}");
                let done = hold("block sizes", index as u64, |random| {
                    accepted(random, routine, |call| (call.w, call.r) = (other, w))
                });
                assert_eq!(done.number, expected, "{routine:?}, r {w}");
            }
        }
    }
}
