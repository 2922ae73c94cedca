//! The comparison of integer solutions can fail: each of these plausible and false implementations is told apart from
//! the reference.

use compare::isolve::{calls, compare};
use compare::some_case;
use reference::{check_isolve, is, isolve};
use std::ops::Range;

/// What a system is made of: its code, its order, A, B and the length of X.
#[derive(Clone, Copy)]
struct Given<'g> {
    uplo: i32,
    n: i32,
    a: &'g [i16],
    b: &'g [i16],
    x_len: usize,
}

type Number = fn(&Given) -> i32;
type Rest = fn(i64) -> i64;
type Quotient = fn(i64, i64) -> Result<i64, i32>;
type Write = fn(bool, &[i16], &mut [i16]);

/// An implementation by substitution, in parts.
#[derive(Clone, Copy)]
struct Parts {
    /// The number of the first bad argument, or 0.
    number: Number,
    /// What is done to X if there is such a number.
    refused: fn(i32, &mut [i16]),
    /// A is upper triangular.
    upper: fn(i32) -> bool,
    /// Where entry (i, j) is, for this order.
    place: fn(usize, usize, usize) -> usize,
    /// The columns of the triangle's row i, by whether it is the upper one, and the order.
    columns: fn(bool, usize, usize) -> Range<usize>,
    /// What becomes of the right side when a term is subtracted from it.
    rest: Rest,
    /// The unknown from what is left and the entry on the diagonal, or what the call hands back.
    quotient: Quotient,
    /// What is done with the unknowns, all of them if it is true; those not solved have the old content.
    write: Write,
}

const RIGHT: Parts = Parts {
    number: right_number,
    refused: |_, _| (),
    upper: |uplo| is(uplo, 'U'),
    place: |n, i, j| j * n + i,
    columns: |upper, n, i| if upper { i..n } else { 0..i + 1 },
    rest: |rest| rest,
    quotient: |rest, entry| in_range(whole(rest, entry)?, -32768, 32767),
    write: |all, found, x| {
        if all {
            x.copy_from_slice(found);
        }
    },
};

fn right_number(given: &Given) -> i32 {
    check_isolve(given.uplo, given.n, given.a, given.b.len(), given.x_len)
}

/// The quotient, if it is whole; by zero there is none.
fn whole(rest: i64, entry: i64) -> Result<i64, i32> {
    match rest.checked_rem(entry) {
        Some(0) => Ok(rest / entry),
        _ => Err(-1),
    }
}

/// The quotient, if it is in the range.
fn in_range(quotient: i64, least: i64, greatest: i64) -> Result<i64, i32> {
    given_if((least..=greatest).contains(&quotient), quotient)
}

/// The quotient on a condition; else there is no solution.
fn given_if(condition: bool, quotient: i64) -> Result<i64, i32> {
    condition.then_some(quotient).ok_or(-1)
}

impl Parts {
    /// The unknowns, beginning with the old content of X, up to the first equation that fails; and what that one hands
    /// back, or 0.
    fn substitute(&self, given: &Given, old: &[i16]) -> (i32, Vec<i16>) {
        let (upper, n) = ((self.upper)(given.uplo), given.n as usize);
        let mut x = old.to_vec();
        for step in 0..n {
            let i = if upper { n - 1 - step } else { step };
            let entry = |j| given.a[(self.place)(n, i, j)] as i64;
            let others = (self.columns)(upper, n, i).filter(|&j| j != i);
            let rest = others.fold(given.b[i] as i64, |rest, j| (self.rest)(rest - entry(j) * x[j] as i64));
            match (self.quotient)(rest, entry(i)) {
                Ok(quotient) => x[i] = quotient as i16,
                Err(number) => return (number, x),
            }
        }
        (0, x)
    }

    fn solve(&self, given: &Given, x: &mut [i16]) -> i32 {
        let number = (self.number)(given);
        if number != 0 {
            (self.refused)(number, x);
            return number;
        }
        let (number, found) = self.substitute(given, x);
        (self.write)(number == 0, &found, x);
        number
    }
}

/// One of the systems of the comparison tells the implementation apart from the reference.
fn told_apart(parts: Parts) -> bool {
    let solve = |uplo: i32, n: i32, a: &[i16], b: &[i16], x: &mut [i16]| {
        parts.solve(&Given { uplo, n, a, b, x_len: x.len() }, x)
    };
    some_case(&calls::ALL, |case| compare(case, &solve, &isolve).is_err())
}

/// Each of them is told apart.
fn all_told_apart<const COUNT: usize>(wrong: [(&str, Parts); COUNT]) {
    for (name, parts) in wrong {
        assert!(told_apart(parts), "{name}");
    }
}

#[test]
fn right_parts_are_not_told_apart() {
    assert!(!told_apart(RIGHT));
}

#[test]
fn wrong_quotients() {
    fn all(quotient: i64) -> Result<i64, i32> {
        in_range(quotient, -32768, 32767)
    }
    let wrong: [(&str, Quotient); 16] = [
        ("rounded toward zero", |rest, entry| all(rest / entry)),
        ("rounded down", |rest, entry| all((rest as f64 / entry as f64).floor() as i64)),
        ("rounded to nearest", |rest, entry| all((rest as f64 / entry as f64).round() as i64)),
        ("a negative remainder overlooked", |rest, entry| given_if(rest % entry <= 0, all(rest / entry)?)),
        ("a positive remainder overlooked", |rest, entry| given_if(rest % entry >= 0, all(rest / entry)?)),
        ("without its sign", |rest, entry| all(whole(rest, entry)?.abs())),
        ("of the magnitude on the diagonal", |rest, entry| all(whole(rest, entry.abs())?)),
        ("32768 taken", |rest, entry| in_range(whole(rest, entry)?, -32768, 32768)),
        ("-32769 taken", |rest, entry| in_range(whole(rest, entry)?, -32769, 32767)),
        ("32767 not taken", |rest, entry| in_range(whole(rest, entry)?, -32768, 32766)),
        ("-32768 not taken", |rest, entry| in_range(whole(rest, entry)?, -32767, 32767)),
        ("wrapped to 16 bits", whole),
        ("cut to 16 bits", |rest, entry| Ok(whole(rest, entry)?.clamp(-32768, 32767))),
        ("unsigned 16 bits taken", |rest, entry| in_range(whole(rest, entry)?, -32768, 65535)),
        ("zero not taken", |rest, entry| given_if(rest != 0, all(whole(rest, entry)?)?)),
        ("not divided", |rest, _| all(rest)),
    ];
    all_told_apart(wrong.map(|(name, quotient)| (name, Parts { quotient, ..RIGHT })));
}

#[test]
fn wrong_sums() {
    let wrong: [(&str, Rest); 5] = [
        ("wrapped to 16 bits", |rest| rest as i16 as i64),
        ("wrapped to 32 bits", |rest| rest as i32 as i64),
        ("cut to 16 bits", |rest| rest.clamp(-32768, 32767)),
        ("cut to 32 bits", |rest| rest.clamp(-1 << 31, (1 << 31) - 1)),
        ("in single precision", |rest| rest as f32 as i64),
    ];
    all_told_apart(wrong.map(|(name, rest)| (name, Parts { rest, ..RIGHT })));
}

#[test]
fn wrong_entries() {
    all_told_apart([
        ("the other triangle read too", Parts { columns: |_, n, _| 0..n, ..RIGHT }),
        (
            "the unknown that is solved first left out",
            Parts { columns: |upper, n, i| if upper { i..n - 1 } else { 1..i + 1 }, ..RIGHT },
        ),
        ("only the diagonal", Parts { columns: |_, _, i| i..i, ..RIGHT }),
        ("stored by rows", Parts { place: |n, i, j| i * n + j, ..RIGHT }),
        ("the lower triangle in both cases", Parts { place: |n, i, j| i.min(j) * n + i.max(j), ..RIGHT }),
        ("the upper triangle in both cases", Parts { place: |n, i, j| i.max(j) * n + i.min(j), ..RIGHT }),
        ("the triangles exchanged", Parts { upper: |uplo| is(uplo, 'L'), ..RIGHT }),
        ("a small u as L", Parts { upper: |uplo| uplo == 'U' as i32, ..RIGHT }),
        ("a small l as U", Parts { upper: |uplo| uplo != 'L' as i32, ..RIGHT }),
    ]);
}

#[test]
fn wrong_writes() {
    let wrong: [(&str, Write); 8] = [
        ("as far as it goes", |_, found, x| x.copy_from_slice(found)),
        ("cleared without a solution", |all, found, x| if all { x.copy_from_slice(found) } else { x.fill(0) }),
        ("nothing", |_, _, _| ()),
        ("in the other order", |all, found, x| {
            (RIGHT.write)(all, &found.iter().rev().copied().collect::<Vec<i16>>(), x);
        }),
        ("without the first", |all, found, x| (RIGHT.write)(all, &[&x[..1], &found[1..]].concat(), x)),
        ("without the last", |all, found, x| {
            let last = x.len() - 1;
            (RIGHT.write)(all, &[&found[..last], &x[last..]].concat(), x);
        }),
        ("added to the old content", |all, found, x| {
            let sums: Vec<i16> = found.iter().zip(&*x).map(|(found, old)| found.wrapping_add(*old)).collect();
            (RIGHT.write)(all, &sums, x);
        }),
        ("with the other sign", |all, found, x| {
            (RIGHT.write)(all, &found.iter().map(|x| x.wrapping_neg()).collect::<Vec<i16>>(), x);
        }),
    ];
    all_told_apart(wrong.map(|(name, write)| (name, Parts { write, ..RIGHT })));
    fn clear(x: &mut [i16], condition: bool) {
        x.iter_mut().filter(|_| condition).for_each(|x| *x = 0);
    }
    all_told_apart([
        ("cleared with 39", Parts { refused: |number, x| clear(x, number == 39), ..RIGHT }),
        ("cleared with 40", Parts { refused: |number, x| clear(x, number == 40), ..RIGHT }),
        ("cleared with 41", Parts { refused: |number, x| clear(x, number == 41), ..RIGHT }),
    ]);
}

/// The number, but for zeros on the diagonal.
fn without_41(given: &Given) -> i32 {
    match right_number(given) {
        41 => 0,
        number => number,
    }
}

/// Zeros on the diagonal are met with when it is divided by them.
#[test]
fn wrong_divisions_by_zero() {
    let wrong: [(&str, Quotient); 2] = [
        ("41 up to the first equation that fails", |rest, entry| match entry {
            0 => Err(41),
            _ => (RIGHT.quotient)(rest, entry),
        }),
        ("any unknown for an equation that holds", |rest, entry| match (rest, entry) {
            (0, 0) => Ok(0),
            _ => (RIGHT.quotient)(rest, entry),
        }),
    ];
    all_told_apart(wrong.map(|(name, quotient)| (name, Parts { number: without_41, quotient, ..RIGHT })));
}

/// A zero on the diagonal, as far as A goes.
fn has_zero(given: &Given) -> bool {
    let n = given.n.clamp(0, 100) as usize;
    (0..n).any(|i| given.a.get(i * n + i) == Some(&0))
}

/// The lists are not those of the order.
fn has_bad_list(given: &Given) -> bool {
    let n = given.n.unsigned_abs() as usize;
    given.a.len() != n * n || given.b.len() != n || given.x_len != n
}

/// The number, where one of them comes too early on a condition.
fn early(given: &Given, number: i32, too_early: i32, condition: bool) -> i32 {
    match right_number(given) {
        right if right == number && condition => too_early,
        right => right,
    }
}

/// The number with the lists cut to the lengths of the order, for those that are marked.
fn longer_taken(given: &Given, [a, b, x]: [bool; 3]) -> i32 {
    let n = given.n.clamp(0, 100) as usize;
    let cut = |len: usize, right: usize, marked: bool| if marked { len.min(right) } else { len };
    let (a_len, b_len) = (cut(given.a.len(), n * n, a), cut(given.b.len(), n, b));
    right_number(&Given { a: &given.a[..a_len], b: &given.b[..b_len], x_len: cut(given.x_len, n, x), ..*given })
}

/// The number with another code.
fn with_code(given: &Given, uplo: i32) -> i32 {
    right_number(&Given { uplo, ..*given })
}

#[test]
fn wrong_numbers() {
    let wrong: [(&str, Number); 20] = [
        ("40 before 39", |given| early(given, 39, 40, has_bad_list(given))),
        ("41 before 39", |given| early(given, 39, 41, has_zero(given))),
        ("41 before 40", |given| early(given, 40, 41, has_zero(given))),
        ("41 for the first entry alone", |given| early(given, 41, 0, given.a.first() != Some(&0))),
        ("41 without the last entry", |given| early(given, 41, 0, given.a.last() == Some(&0))),
        ("-1 for 41", |given| early(given, 41, -1, true)),
        ("40 for a bad order", |given| early(given, 39, 40, !(1..=64).contains(&given.n))),
        ("codes in lower case refused", |given| if given.uplo > 96 { 39 } else { right_number(given) }),
        ("eight bits of a code", |given| with_code(given, given.uplo & 255)),
        ("any other code as U", |given| with_code(given, if is(given.uplo, 'L') { 'L' } else { 'U' } as i32)),
        ("order 64 refused", |given| if given.n == 64 { 39 } else { right_number(given) }),
        ("order 65 taken", |given| early(given, 39, 0, given.n == 65 && !has_bad_list(given))),
        ("order 0 taken", |given| early(given, 39, 0, given.n == 0 && !has_bad_list(given))),
        ("order 1 refused", |given| if given.n == 1 { 39 } else { right_number(given) }),
        ("a longer A taken", |given| longer_taken(given, [true, false, false])),
        ("a longer B taken", |given| longer_taken(given, [false, true, false])),
        ("a longer X taken", |given| longer_taken(given, [false, false, true])),
        ("a list of the wrong length as no solution", |given| early(given, 40, -1, true)),
        ("no solution for zeros", |given| early(given, 0, -1, given.b.iter().all(|&b| b == 0))),
        ("no solution at order 64", |given| early(given, 0, -1, given.n == 64)),
    ];
    all_told_apart(wrong.map(|(name, number)| (name, Parts { number, ..RIGHT })));
}
