//! Made-up calls and their arrays.

use crate::{in_triangle, writes, Random};
use reference::{needed, Call, Routine};

/// A call and its arrays: of each pair the first is for the implementation under test, the second for the one that it
/// is held against. For TRMM and TRSM the output is B, and they and SYRK do not look at `b`.
#[derive(Clone)]
#[allow(missing_docs)]
pub struct Case {
    pub call: Call,
    pub a: [Vec<f64>; 2],
    pub b: [Vec<f64>; 2],
    pub out: [Vec<f64>; 2],
}

const TWO_53: f64 = 9007199254740992.0;

/// Values at the edges of the format.
const SPECIAL: [f64; 18] = [
    0.0,
    -0.0,
    1.0,
    -1.0,
    f64::INFINITY,
    f64::NEG_INFINITY,
    f64::NAN,
    5e-324,
    -5e-324,
    f64::MIN_POSITIVE,
    f64::MIN_POSITIVE - 5e-324,
    f64::MAX,
    f64::MIN,
    TWO_53,
    TWO_53 - 1.0,
    TWO_53 + 2.0,
    -TWO_53,
    f64::EPSILON,
];

/// The values of a case's matrices.
#[derive(Clone, Copy)]
pub(crate) enum Values {
    /// Small integers.
    Integers,
    /// Full mantissas and a wide range of exponents.
    Wide,
    /// Exponents near that of 1.
    Tame,
    /// 2^53 and small numbers, whose sums depend on the order.
    Order,
    /// Tame with some values of `SPECIAL`.
    Sprinkled,
    /// Values of `SPECIAL`.
    Special,
    /// Products that are subnormal, or nearly.
    Tiny,
    /// Products that overflow, or nearly.
    Huge,
}

pub(crate) const VALUES: [Values; 8] = [
    Values::Integers,
    Values::Wide,
    Values::Tame,
    Values::Order,
    Values::Sprinkled,
    Values::Special,
    Values::Tiny,
    Values::Huge,
];

pub(crate) fn value(random: &mut Random, values: Values) -> f64 {
    match values {
        Values::Integers => random.from(-4, 4) as f64,
        Values::Wide => random.float(-40, 40),
        Values::Tame => random.float(-4, 0),
        Values::Order => random.pick(&[1.0, -1.0, 0.5, 3.0, TWO_53, -TWO_53, TWO_53 - 1.0, TWO_53 + 2.0]),
        Values::Sprinkled if random.once_in(12) => random.pick(&SPECIAL),
        Values::Sprinkled => random.float(-4, 0),
        Values::Special => random.pick(&SPECIAL),
        Values::Tiny => random.float(-545, -505),
        Values::Huge => random.float(505, 513),
    }
}

/// What stands where a call does not look.
fn filler(random: &mut Random) -> f64 {
    if random.once_in(2) {
        random.pick(&[f64::NAN, f64::INFINITY, f64::NEG_INFINITY])
    } else {
        random.float(-1000, 1000)
    }
}

/// α or β.
fn scalar(random: &mut Random) -> f64 {
    match random.from(0, 9) {
        0..=2 => 1.0,
        3 => random.pick(&[0.0, -0.0]),
        4 => random.pick(&SPECIAL),
        5 => random.pick(&[-1.0, 2.0, 0.5]),
        _ => random.float(-3, 3),
    }
}

/// A letter, in upper or lower case.
pub(crate) fn letter(random: &mut Random, letters: &[char]) -> i32 {
    let letter = random.pick(letters);
    if random.once_in(2) {
        letter as i32
    } else {
        letter.to_ascii_lowercase() as i32
    }
}

/// Random options and scalars.
pub(crate) fn options(random: &mut Random, routine: Routine) -> Call {
    Call {
        side: letter(random, &['L', 'R']),
        uplo: letter(random, &['L', 'U']),
        transa: letter(random, &['N', 'T', 'C']),
        transb: letter(random, &['N', 'T', 'C']),
        diag: letter(random, &['U', 'N']),
        alpha: scalar(random),
        beta: scalar(random),
        ..Call::new(routine)
    }
}

/// A strip width or block size, small ones often.
pub(crate) fn width(random: &mut Random) -> i32 {
    if random.once_in(2) {
        random.from(0, 8)
    } else {
        random.from(0, 64)
    }
}

/// A leading dimension for a matrix of so many rows.
fn leading(random: &mut Random, rows: i32) -> i32 {
    rows.max(1) + random.pick(&[0, 0, 0, 1, 2, 5])
}

/// Good leading dimensions for the call's options and sizes.
pub(crate) fn with_leading(random: &mut Random, call: Call) -> Call {
    Call {
        lda: leading(random, call.stored_a().0),
        ldb: leading(random, call.stored_b().0),
        ldc: leading(random, call.shape_of_output().0),
        ..call
    }
}

/// An accepted call of the routine with random options, sizes to 20 (now and then to 70), widths and block sizes.
/// `fix` may set some of them; leading dimensions and arrays come after it.
pub fn accepted(random: &mut Random, routine: Routine, fix: impl FnOnce(&mut Call)) -> Case {
    let top = if random.once_in(50) { 70 } else { 20 };
    let mut call = Call {
        m: random.from(0, top),
        n: random.from(0, top),
        k: random.from(0, top),
        w: width(random),
        r: width(random),
        ..options(random, routine)
    };
    fix(&mut call);
    let call = with_leading(random, call);
    let values = random.pick(&VALUES);
    fill(random, call, values)
}

/// An accepted call with sizes around the multiples of 64, and values that do not overflow.
pub fn large(random: &mut Random, routine: Routine, fix: impl FnOnce(&mut Call)) -> Case {
    const SIZES: [i32; 6] = [63, 64, 65, 127, 128, 129];
    let alpha = random.float(-1, 1);
    let mut call = Call {
        m: random.pick(&SIZES),
        n: random.pick(&SIZES),
        k: random.pick(&SIZES),
        alpha: random.pick(&[1.0, alpha]),
        beta: random.pick(&[0.0, 1.0, 0.75]),
        w: random.pick(&[0, 1, 7, 32, 63, 64]),
        r: random.pick(&[0, 1, 7, 32, 63, 64]),
        ..options(random, routine)
    };
    fix(&mut call);
    let call = with_leading(random, call);
    let values = random.pick(&[Values::Tame, Values::Tame, Values::Order]);
    fill(random, call, values)
}

/// A solve with A of order up to `top`, one in five refused. From some index on, the diagonal may have zeros of either
/// sign, the least positive number and NaN. It has them too where a solve does not look: if it is unit, if α, m or n is
/// zero, and if the call is refused. `fix` may set options, strip width and block size.
pub fn singular(random: &mut Random, top: i32, fix: impl FnOnce(&mut Call)) -> Case {
    let (order, others) = (random.from(0, top), random.pick(&[0, 1, 2, 5, 12, 20]));
    let mut call = Call {
        alpha: random.pick(&[0.0, -0.0, 1.0, 1.0, -2.0, 0.75, f64::NAN]),
        w: random.pick(&[0, 1, 3, 7, 64]),
        r: width(random),
        ..options(random, Routine::Trsm)
    };
    fix(&mut call);
    (call.m, call.n) = if call.right() { (others, order) } else { (order, others) };
    let call = with_leading(random, call);
    let Case { mut a, b, out, .. } = fill(random, call, Values::Tame);
    let whole = needed(call.lda, order, order).max(a[0].len());
    a.iter_mut().for_each(|a| a.resize(whole, 1.0));
    if order > 0 {
        let from = random.from(0, order - 1);
        for _ in 0..random.pick(&[0, 1, 1, 2, 3, 9]) {
            let place = random.from(from, order - 1) as usize * (call.lda as usize + 1);
            let value = random.pick(&[0.0, 0.0, -0.0, -0.0, 5e-324, f64::NAN]);
            a.iter_mut().for_each(|a| a[place] = value);
        }
    }
    let call = match random.from(0, 14) {
        0 => Call { w: -1, ..call },
        1 => Call { r: -1, ..call },
        2 => Call { ldb: -1, ..call },
        _ => call,
    };
    Case { call, a, b, out }
}

/// The call reads entry (i, j) of A.
fn reads_a(call: &Call, i: usize, j: usize) -> bool {
    match call.routine {
        Routine::Gemm | Routine::Syrk | Routine::Syr2k => true,
        Routine::Symm => in_triangle(call, i, j),
        Routine::Trmm | Routine::Trsm => in_triangle(call, i, j) && !(i == j && call.unit()),
    }
}

/// The call reads entry (i, j) of its output.
fn reads_output(call: &Call, i: usize, j: usize) -> bool {
    writes(call, i, j) && if call.routine.in_place() { call.alpha != 0.0 } else { call.beta != 0.0 }
}

/// A pair of arrays of the same length, alike where the call reads.
pub(crate) fn pair(
    random: &mut Random, len: usize, ld: i32, reads: impl Fn(usize, usize) -> bool,
    mut value: impl FnMut(&mut Random, usize, usize) -> f64,
) -> [Vec<f64>; 2] {
    let mut pair = [(); 2].map(|_| (0..len).map(|_| filler(random)).collect::<Vec<f64>>());
    let ld = ld as usize;
    for p in (0..len).filter(|p| reads(p % ld, p / ld)) {
        let value = value(random, p % ld, p / ld);
        pair[0][p] = value;
        pair[1][p] = value;
    }
    pair
}

/// The length of an array: as much as is needed, or more; anything if it is not tested.
pub(crate) fn length(random: &mut Random, tested: bool, needed: usize) -> usize {
    if tested {
        needed + random.pick(&[0, 0, 1, 7])
    } else {
        random.pick(&[0, 0, 1, needed])
    }
}

/// Arrays for an accepted call.
fn fill(random: &mut Random, call: Call, values: Values) -> Case {
    let reads_inputs = !call.empty() && !call.start_only();
    let has_b = call.routine != Routine::Syrk && !call.routine.in_place();
    let within = |(rows, cols): (i32, i32), i: usize, j: usize| i < rows as usize && j < cols as usize;
    let needed = |ld: i32, (rows, cols): (i32, i32)| needed(ld, rows, cols);

    let a_len = length(random, reads_inputs, needed(call.lda, call.stored_a()));
    let reads = |i, j| reads_inputs && within(call.stored_a(), i, j) && reads_a(&call, i, j);
    let a = pair(random, a_len, call.lda, reads, |random, i, j| match (call.routine, values) {
        // A solve multiplies errors up: the triangle is kept near the identity, except for special values.
        (Routine::Trsm, Values::Wide | Values::Tame | Values::Tiny | Values::Huge) if i == j => random.float(0, 1),
        (Routine::Trsm, Values::Wide | Values::Tame | Values::Tiny | Values::Huge) => random.float(-5, -3),
        _ => value(random, values),
    });

    let b_len = if has_b { length(random, reads_inputs, needed(call.ldb, call.stored_b())) } else { 0 };
    let reads = |i, j| reads_inputs && within(call.stored_b(), i, j);
    let b = pair(random, b_len, call.ldb, reads, |random, _, _| value(random, values));

    let ld = call.ld_of_output();
    let out_len = length(random, !call.empty(), needed(ld, call.shape_of_output()));
    let reads = |i, j| !call.empty() && reads_output(&call, i, j);
    let out = pair(random, out_len, ld, reads, |random, _, _| value(random, values));
    Case { call, a, b, out }
}

/// Numbers from the ends of their range.
pub(crate) const ENDS: [i32; 8] = [i32::MIN, i32::MIN + 1, -64, -1, 0, 65_536, i32::MAX - 1, i32::MAX];

/// A call with sizes and leading dimensions from the ends of their range, on short arrays; mostly refused.
pub fn extreme(random: &mut Random, routine: Routine) -> Case {
    let call = options(random, routine);
    let mut number = |likely: &[i32]| if random.once_in(3) { random.pick(&ENDS) } else { random.pick(likely) };
    let sizes = [0, 1, 1, 2, 3];
    let call = Call {
        m: number(&sizes),
        n: number(&sizes),
        k: number(&sizes),
        lda: number(&[1, 3]),
        ldb: number(&[1, 3]),
        ldc: number(&[1, 3]),
        w: width(random),
        r: width(random),
        ..call
    };
    let mut array = |len: i32| -> [Vec<f64>; 2] {
        let array: Vec<f64> = (0..len).map(|_| value(random, Values::Tame)).collect();
        [array.clone(), array]
    };
    let (a, b, out) = (array(9), array(8), array(7));
    Case { call, a, b, out }
}
