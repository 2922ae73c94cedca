//! The systems of the comparison of integer solutions.

use super::cases::{code, fractional, of_rows, one_off, outside, overloaded, plain, solvable, spoiled};
use super::{Argument, Case, ARGUMENTS};
use crate::{cases, two_of, Random};

/// What is done with a system.
pub type Each<'e> = crate::Each<'e, Case>;

/// The systems of one test.
pub type Calls = fn(Each);

/// The systems of all tests.
pub const ALL: [Calls; 11] = [
    small,
    codes,
    orders,
    bad_arguments,
    one_equation_off,
    with_a_fraction,
    above,
    below,
    beyond_32_bits,
    with_a_solution,
    random,
];

/// Every letter with every order, twelve times, with a solution.
pub fn with_a_solution(each: Each) {
    for index in cases(4 * 64 * 12) {
        let uplo = "LlUu".as_bytes()[index % 4] as i32;
        each("solvable", index as u64, &|random| solvable(random, uplo, 1 + index / 4 % 64));
    }
}

/// One equation off by one, at every place, upwards and downwards, three times.
pub fn one_equation_off(each: Each) {
    let places = [1, 2, 3, 4, 7, 16, 33, 63, 64].into_iter().flat_map(|n| (0..n).map(move |i| (n, i)));
    for (place, (n, i)) in places.enumerate() {
        for round in 0..12 {
            let (uplo, off) = [('L', 1), ('L', -1), ('U', 1), ('U', -1)][round % 4];
            each("one off", (12 * place + round) as u64, &|random| one_off(random, uplo as i32, n, i, off));
        }
    }
}

/// An order of 64 once in eight times, else up to 20.
fn order(random: &mut Random, least: i32) -> usize {
    let order = random.from(least, 20);
    random.pick(&[64, order, order, order, order, order, order, order]) as usize
}

/// Three thousand systems in which an unknown would be a fraction.
pub fn with_a_fraction(each: Each) {
    for index in 0..3000 {
        each("a fraction", index, &a_fraction);
    }
}

fn a_fraction(random: &mut Random) -> Case {
    let (uplo, n) = (code(random), order(random, 1));
    fractional(random, uplo, n)
}

/// Values above those of 16 bits.
const ABOVE: [i64; 6] = [32768, 32769, 40_000, 65_535, 65_536, 98_304];

/// A system in which an unknown, the last to be solved once in two times, would have to be one of the values.
fn an_unknown_of(random: &mut Random, values: &[i64]) -> Case {
    let (uplo, n, value) = (code(random), order(random, 2), random.pick(values));
    let any = random.from(1, n as i32 - 1) as usize;
    let solved = random.pick(&[any, n - 1]);
    outside(random, uplo, n, solved, value)
}

/// Fifteen hundred systems in which an unknown would be too large.
pub fn above(each: Each) {
    for index in 0..1500 {
        each("above", index, &|random| an_unknown_of(random, &ABOVE));
    }
}

/// Fifteen hundred systems in which an unknown would be too small.
pub fn below(each: Each) {
    for index in 0..1500 {
        each("below", index, &|random| an_unknown_of(random, &ABOVE.map(|value| -1 - value)));
    }
}

/// Sums of three largest products and more, every order from 4 on twelve times.
pub fn beyond_32_bits(each: Each) {
    for index in 0..61 * 12 {
        each("beyond 32 bits", index, &|random| {
            let uplo = code(random);
            overloaded(random, uplo, 4 + index as usize % 61)
        });
    }
}

/// All systems of order 1 with numbers from the ends and the middle of the range, and of order 2 with small numbers.
pub fn small(each: Each) {
    const NUMBERS: [i16; 13] = [-32768, -32767, -16384, -5, -2, -1, 1, 2, 3, 5, 16384, 32766, 32767];
    const ENTRIES: [i64; 6] = [-3, -2, -1, 1, 2, 3];
    let mut index = 0;
    for uplo in ['L' as i32, 'U' as i32] {
        let mut next = |make: &dyn Fn(&mut Random) -> Case| {
            each("small", index, make);
            index += 1;
        };
        for entry in NUMBERS {
            for b in NUMBERS.into_iter().chain([0]) {
                next(&|random| of_rows(random, uplo, &[&[entry as i64]], &[b]));
            }
        }
        for pick in 0..6 * 6 * 5 * 49 {
            let (first, own) = (ENTRIES[pick % 6], ENTRIES[pick / 6 % 6]);
            let (other, b) = ((pick / 36 % 5) as i64 - 2, [pick / 180 % 7, pick / 1260].map(|b| b as i16 - 3));
            next(&|random| of_rows(random, uplo, &[&[first], &[own, other]], &b));
        }
    }
}

/// The codes from -300 to 599, and some that are alike in their last 8 or 16 bits.
pub fn codes(each: Each) {
    let far = [65_536 + 76, 65_536 + 117, i32::MIN, i32::MIN + 85, i32::MAX];
    for (index, code) in (-300..600).chain(far).enumerate() {
        each("codes", index as u64, &|random| Case { uplo: code, ..solvable(random, 'L' as i32, 1) });
    }
}

/// The orders from -70 to 140 with lists that fit them, and the ends of the range with empty ones.
pub fn orders(each: Each) {
    let far = [i32::MIN, i32::MIN + 1, 65_536, i32::MAX - 1, i32::MAX];
    for (index, n) in (-70..=140).chain(far).enumerate() {
        let fitting = if n.unsigned_abs() <= 140 { n.unsigned_abs() as usize } else { 0 };
        each("orders", index as u64, &|random| {
            let uplo = code(random);
            Case { n, ..solvable(random, uplo, fitting) }
        });
    }
}

/// The arguments that are bad in a case of [`bad_arguments`], in the order of the tests, with their numbers. The two may
/// be the same.
pub fn which_are_bad(index: u64) -> [(i32, Argument); 2] {
    two_of(&ARGUMENTS, index)
}

/// Every argument bad alone, a hundred times, and every two of them, two hundred times.
pub fn bad_arguments(each: Each) {
    for index in 0..100 * 6 * 6 {
        let bad = which_are_bad(index).map(|(_, argument)| argument);
        each("bad system", index, &|random| spoiled(random, &bad));
    }
}

/// Twenty thousand systems of all kinds.
pub fn random(each: Each) {
    for index in cases(20_000) {
        each("random systems", index as u64, &|random| {
            let (uplo, n) = (code(random), order(random, 2));
            let (i, off) = (random.from(0, n as i32 - 1) as usize, random.pick(&[-1, 1]));
            match random.from(0, 7) {
                0 | 1 => solvable(random, uplo, n),
                2 => one_off(random, uplo, n, i, off),
                3 => a_fraction(random),
                4 => {
                    let values = ABOVE.map(|value| random.pick(&[value, -1 - value]));
                    an_unknown_of(random, &values)
                }
                5 => overloaded(random, uplo, n),
                6 => plain(random, uplo, n),
                _ => {
                    let bad = random.pick(&ARGUMENTS);
                    spoiled(random, &[bad.1])
                }
            }
        });
    }
}
