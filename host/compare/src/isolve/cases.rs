//! Made-up triangular systems over whole numbers.

use crate::cases::letter;
use crate::Random;
use reference::is;
use std::iter;

/// A system: of each pair of lists the first is for the implementation under test, the second for the one that it is
/// held against. They agree in the triangle that is read.
#[allow(missing_docs)]
pub struct Case {
    pub uplo: i32,
    pub n: i32,
    pub a: [Vec<i16>; 2],
    pub b: Vec<i16>,
    pub x: [Vec<i16>; 2],
}

/// The values of entries or of unknowns.
#[derive(Clone, Copy)]
enum Values {
    Small,
    Any,
    Ends,
    Least,
    Greatest,
}

/// Values that differ from each other.
const MIXED: [Values; 3] = [Values::Small, Values::Any, Values::Ends];
const VALUES: [Values; 5] = [Values::Small, Values::Any, Values::Ends, Values::Least, Values::Greatest];

fn value(random: &mut Random, values: Values) -> i64 {
    match values {
        Values::Small => random.from(-9, 9) as i64,
        Values::Any => random.from(-32768, 32767) as i64,
        Values::Ends => random.pick(&[-32768, -32767, -1, 0, 1, 32766, 32767]),
        Values::Least => -32768,
        Values::Greatest => 32767,
    }
}

/// Entries of a row, the first of them, which is on the diagonal, not zero.
fn row(random: &mut Random, count: usize, values: Values) -> Vec<i64> {
    loop {
        let entries: Vec<i64> = (0..count).map(|_| value(random, values)).collect();
        if entries[0] != 0 {
            return entries;
        }
    }
}

/// A list of what is not looked at: zeros, or anything.
fn unread(random: &mut Random, len: usize) -> Vec<i16> {
    if random.once_in(4) {
        return vec![0; len];
    }
    let values = random.pick(&MIXED);
    (0..len).map(|_| value(random, values) as i16).collect()
}

/// A code that is taken.
pub(super) fn code(random: &mut Random) -> i32 {
    letter(random, &['L', 'U'])
}

impl Case {
    /// Without entries in the triangle.
    fn empty(random: &mut Random, uplo: i32, n: usize) -> Case {
        let mut lists = |len| [(); 2].map(|_| unread(random, len));
        Case { uplo, n: n as i32, a: lists(n * n), b: vec![0; n], x: lists(n) }
    }

    fn order(&self) -> usize {
        self.n as usize
    }

    /// The columns of row i of the triangle, that of the diagonal first.
    fn columns(&self, i: usize) -> Vec<usize> {
        let others = if is(self.uplo, 'U') { i + 1..self.order() } else { 0..i };
        iter::once(i).chain(others).collect()
    }

    /// The unknown that is solved after so many others.
    fn unknown(&self, solved: usize) -> usize {
        if is(self.uplo, 'U') {
            self.order() - 1 - solved
        } else {
            solved
        }
    }

    /// Puts entries into row i, that on the diagonal first.
    fn set_row(&mut self, i: usize, entries: &[i64]) {
        let (n, columns) = (self.order(), self.columns(i));
        for a in &mut self.a {
            columns.iter().zip(entries).for_each(|(j, &entry)| a[j * n + i] = entry as i16);
        }
    }

    /// Fills the triangle and B for these unknowns, which need not be numbers of 16 bits.
    fn fill(&mut self, random: &mut Random, x: &[i64], values: Values) {
        for i in 0..self.order() {
            let own: Vec<i64> = self.columns(i).iter().map(|&j| x[j]).collect();
            let entries = balanced(random, &own, values);
            self.set_row(i, &entries);
            self.b[i] = sum(&entries, &own) as i16;
        }
    }
}

fn sum(entries: &[i64], x: &[i64]) -> i64 {
    entries.iter().zip(x).map(|(entry, x)| entry * x).sum()
}

fn fits(number: i64) -> bool {
    i16::try_from(number).is_ok()
}

/// Changes entries, one after the other from some place on, until the sum fits into 16 bits. The first one, which is on
/// the diagonal, does not become zero.
fn balance(random: &mut Random, entries: &mut [i64], x: &[i64]) {
    let count = x.len();
    let start = random.from(0, count as i32 - 1) as usize;
    for k in (start..start + count).map(|k| k % count) {
        let others = sum(entries, x) - entries[k] * x[k];
        if x[k] == 0 || fits(sum(entries, x)) {
            continue;
        }
        let nearest = (-others as f64 / x[k] as f64).round() as i64;
        entries[k] = match nearest.clamp(-32768, 32767) {
            0 if k == 0 && others.signum() == x[0].signum() => -1,
            0 if k == 0 => 1,
            entry => entry,
        };
    }
}

/// Entries of a row, that on the diagonal first, whose products with these unknowns have a sum that fits into 16 bits.
fn balanced(random: &mut Random, x: &[i64], values: Values) -> Vec<i64> {
    loop {
        let mut entries = row(random, x.len(), values);
        balance(random, &mut entries, x);
        if fits(sum(&entries, x)) {
            return entries;
        }
    }
}

/// Numbers of 16 bits for the unknowns.
fn unknowns(random: &mut Random, n: usize) -> Vec<i64> {
    let values = random.pick(&VALUES);
    (0..n).map(|_| value(random, values)).collect()
}

/// A system with a solution.
pub(super) fn solvable(random: &mut Random, uplo: i32, n: usize) -> Case {
    let mut case = Case::empty(random, uplo, n);
    let (x, values) = (unknowns(random, n), random.pick(&VALUES));
    case.fill(random, &x, values);
    case
}

/// A system with a solution but for equation i, whose right side is one off.
pub(super) fn one_off(random: &mut Random, uplo: i32, n: usize, i: usize, off: i16) -> Case {
    let mut case = solvable(random, uplo, n);
    let b = case.b[i];
    case.b[i] = b.checked_add(off).unwrap_or(b.wrapping_sub(off));
    case
}

/// A system in which one unknown would have to be a fraction, of either sign, those solved before it being whole.
pub(super) fn fractional(random: &mut Random, uplo: i32, n: usize) -> Case {
    loop {
        let mut case = solvable(random, uplo, n);
        let i = random.from(0, n as i32 - 1) as usize;
        let entry = (case.a[0][i * n + i] as i32).abs();
        let off = random.pick(&[-1, 1]) * random.from(1, (entry - 1).max(1));
        if let (2.., Ok(b)) = (entry, i16::try_from(case.b[i] as i32 + off)) {
            case.b[i] = b;
            return case;
        }
    }
}

/// A system in which the unknown that is solved after `solved` others, at least one, would have to have this value,
/// which is outside of 16 bits.
pub(super) fn outside(random: &mut Random, uplo: i32, n: usize, solved: usize, value: i64) -> Case {
    let mut case = Case::empty(random, uplo, n);
    let (mut x, values) = (unknowns(random, n), random.pick(&MIXED));
    x[case.unknown(solved)] = value;
    x[case.unknown(solved - 1)] = random.pick(&[-1000, -5, 4, 100]);
    case.fill(random, &x, values);
    case
}

/// A system with the largest entries and unknowns, whose last equation has them all with one sign. From order 4 on its
/// sum is beyond 32 bits, and there is no solution.
pub(super) fn overloaded(random: &mut Random, uplo: i32, n: usize) -> Case {
    let mut case = Case::empty(random, uplo, n);
    let [of_x, of_a, of_row] = [(); 3].map(|_| random.pick(&[Values::Least, Values::Greatest]));
    let x = vec![value(random, of_x); n];
    case.fill(random, &x, of_a);
    let mut entries = vec![value(random, of_row); n];
    entries[0] = random.pick(&[-32768, -32768, -16384, -1, 1, 2, 32767]);
    let last = case.unknown(n - 1);
    case.set_row(last, &entries);
    case.b[last] = random.pick(&[-32768, 0, 0, 1, 32767]);
    case
}

/// A system with any entries and any B; one with several unknowns hardly ever has a solution.
pub(super) fn plain(random: &mut Random, uplo: i32, n: usize) -> Case {
    let mut case = Case::empty(random, uplo, n);
    let values = random.pick(&MIXED);
    for i in 0..n {
        let entries = row(random, case.columns(i).len(), values);
        case.set_row(i, &entries);
        case.b[i] = value(random, values) as i16;
    }
    case
}

/// The system with these rows and right sides, in the order of solving, each entry on the diagonal first in its row.
pub(super) fn of_rows(random: &mut Random, uplo: i32, rows: &[&[i64]], b: &[i16]) -> Case {
    let mut case = Case::empty(random, uplo, b.len());
    for solved in 0..b.len() {
        let i = case.unknown(solved);
        case.set_row(i, rows[solved]);
        case.b[i] = b[solved];
    }
    case
}

/// An argument that can be bad.
#[derive(Clone, Copy, Debug)]
#[allow(missing_docs)]
pub enum Argument {
    Uplo,
    N,
    A,
    B,
    X,
    Diagonal,
}
use Argument::*;

/// The arguments that can be bad, in the order in which they are tested, with their numbers.
pub const ARGUMENTS: [(i32, Argument); 6] = [(39, Uplo), (39, N), (40, A), (40, B), (40, X), (41, Diagonal)];

/// A number of elements that is not the right one.
fn wrong_length(random: &mut Random, right: usize, order: usize) -> usize {
    loop {
        let padded = right + order;
        let length = random.pick(&[right - 1, right - 1, right + 1, right + 1, 0, order, padded, padded / 2]);
        if length != right {
            return length;
        }
    }
}

/// Puts a zero on the diagonal of A.
fn zero_on_the_diagonal(random: &mut Random, a: &mut [Vec<i16>; 2], order: usize) {
    let any = random.from(0, order as i32 - 1) as usize;
    let place = random.pick(&[0, any, order - 1]) * (order + 1);
    a.iter_mut().for_each(|a| a[place] = 0);
}

/// Makes one argument of a sound case bad.
fn spoil(random: &mut Random, case: &mut Case, order: usize, argument: Argument) {
    const CODES: [i32; 14] = [0, 75, 77, 84, 86, 107, 109, 116, 118, -76, 256 + 76, 65_536 + 85, i32::MIN, i32::MAX];
    const ORDERS: [i32; 8] = [0, -1, 65, 66, 65_536, i32::MIN, i32::MAX - 1, i32::MAX];
    let Case { uplo, n, a, b, x } = case;
    match argument {
        Uplo => *uplo = random.pick(&CODES),
        N => *n = random.pick(&ORDERS),
        A => {
            let length = wrong_length(random, order * order, order);
            a.iter_mut().for_each(|a| a.resize(length, 1));
        }
        B => b.resize(wrong_length(random, order, order), 1),
        X => {
            let length = wrong_length(random, order, order);
            x.iter_mut().for_each(|x| x.resize(length, 1));
        }
        Diagonal => zero_on_the_diagonal(random, a, order),
    }
}

/// A system, with a solution or without, in which these arguments were made bad, the last one first.
pub(super) fn spoiled(random: &mut Random, bad: &[Argument]) -> Case {
    let (uplo, order) = (code(random), random.from(1, 8) as usize);
    let make = random.pick(&[solvable, fractional, plain] as &[fn(&mut Random, i32, usize) -> Case]);
    let mut case = make(random, uplo, order);
    bad.iter().rev().for_each(|&argument| spoil(random, &mut case, order, argument));
    case
}
