//! Document 01's table, row by row, its and document 02's examples of the numbers handed back, the zeros of solves, GEMM
//! of many items, and integer solutions.

use crate::machine::{run, trailer, End, Lent};
use crate::{direct, isolve, many, Call, Done, Many, ManyDone, Routine};

const P: f64 = 9007199254740992.0;
const LETTER_U: i32 = 'U' as i32;

/// A call whose leading dimensions are the rows of its matrices.
fn tight(call: Call) -> Call {
    Call { lda: call.stored_a().0, ldb: call.stored_b().0, ldc: call.shape_of_output().0, ..call }
}

fn sized(routine: Routine, m: i32, n: i32, k: i32) -> Call {
    Call { m, n, k, ..Call::new(routine) }
}

/// Two NaNs count as equal.
fn same(x: &[f64], y: &[f64]) -> bool {
    x.len() == y.len() && x.iter().zip(y).all(|(x, y)| x.to_bits() == y.to_bits() || (x.is_nan() && y.is_nan()))
}

/// Makes an accepted call and holds the output against the result, for every width and block size.
fn row(call: Call, a: &[f64], b: &[f64], out: &[f64], result: &[f64]) {
    for w in [0, 1, 2, 3, 64] {
        for r in [0, 1, 2, 3, 64] {
            let mut c = out.to_vec();
            assert_eq!(direct(&Call { w, r, ..tight(call) }, a, b, &mut c), Done::of(0));
            assert!(same(&c, result), "{c:?} is not {result:?}");
        }
    }
}

#[test]
fn row_a() {
    row(sized(Routine::Gemm, 2, 2, 2), &[1., 3., 2., 4.], &[5., 7., 6., 8.], &[0.; 4], &[19., 43., 22., 50.]);
}

#[test]
fn row_b() {
    row(sized(Routine::Gemm, 1, 1, 3), &[P, 1., 1.], &[1., 1., 1.], &[0.], &[P]);
}

#[test]
fn row_c() {
    row(sized(Routine::Gemm, 1, 1, 3), &[1., 1., P], &[1., 1., 1.], &[0.], &[P + 2.]);
}

#[test]
fn row_d() {
    row(sized(Routine::Gemm, 1, 1, 1), &[2.], &[3.], &[f64::NAN], &[6.]);
}

#[test]
fn row_e() {
    row(sized(Routine::Gemm, 1, 1, 1), &[f64::INFINITY], &[0.], &[0.], &[f64::NAN]);
}

#[test]
fn row_f() {
    let call = Call { alpha: 0., beta: 2., ..sized(Routine::Gemm, 1, 1, 1) };
    row(call, &[f64::INFINITY], &[1.], &[3.], &[6.]);
}

#[test]
fn row_g() {
    let call = Call { uplo: LETTER_U, ..sized(Routine::Symm, 2, 1, 0) };
    row(call, &[1., 9., 2., 3.], &[1., 1.], &[0., 0.], &[3., 5.]);
}

#[test]
fn row_h() {
    let call = Call { beta: 1., ..sized(Routine::Syrk, 0, 2, 1) };
    row(call, &[1., 2.], &[], &[10., 20., 30., 40.], &[11., 22., 30., 44.]);
}

#[test]
fn row_i() {
    row(sized(Routine::Syr2k, 0, 2, 1), &[1., 2.], &[3., 4.], &[9.; 4], &[6., 10., 9., 16.]);
}

#[test]
fn row_j() {
    let call = Call { uplo: LETTER_U, diag: LETTER_U, ..sized(Routine::Trmm, 2, 1, 0) };
    row(call, &[9., 9., 2., 9.], &[], &[3., 4.], &[11., 4.]);
}

#[test]
fn row_k() {
    let call = Call { alpha: 2., ..sized(Routine::Trsm, 2, 1, 0) };
    row(call, &[2., 1., 9., 4.], &[], &[3., 7.], &[3., 2.75]);
}

#[test]
fn row_l() {
    let call = Call { uplo: LETTER_U, diag: LETTER_U, ..sized(Routine::Trsm, 3, 1, 0) };
    row(call, &[1., 0., 0., 1., 1., 0., 1., 0., 1.], &[], &[1., P, -P], &[0., P, -P]);
}

/// A record of one word for each field, with A, B and C the arrays X, Y and Z from their beginning.
fn record(call: Call) -> Vec<i32> {
    let Call { side, uplo, transa, transb, diag, m, n, k, lda, ldb, ldc, w, r, .. } = call;
    let routine = call.routine as i32;
    vec![routine, side, uplo, transa, transb, diag, m, n, k, 0, 0, lda, 1, 0, ldb, 2, 0, ldc, w, r]
}

/// A sheet of these records after `before` words that are not read.
fn sheet(before: usize, records: &[Vec<i32>]) -> Vec<i32> {
    let mut sheet = vec![-7; before];
    records.iter().for_each(|record| sheet.extend(record));
    sheet.extend([before as i32, records.len() as i32]);
    sheet
}

fn lent(answers: usize) -> Lent {
    Lent { arrays: [vec![2.; 9], vec![3., 4., 5., 6.], vec![0.; 9]], answers: vec![99; answers] }
}

fn row_m_call() -> Call {
    Call { w: 1, ..tight(sized(Routine::Gemm, 1, 3, 1)) }
}

#[test]
fn row_m() {
    let sheet = sheet(5, &[record(row_m_call())]);
    let scalars = [1., 0.];
    let mut lent = lent(2);
    assert_eq!(run(&sheet, &scalars, &mut lent, 0, 0, 2), End { number: 0, p: 0, s: 2, steps: 2, zero: -1 });
    assert_eq!((lent.arrays[2][..4].to_vec(), lent.answers[0]), (vec![6., 8., 0., 0.], 99));
    assert_eq!(run(&sheet, &scalars, &mut lent, 0, 2, 1), End { number: 0, p: 1, s: 0, steps: 1, zero: -1 });
    assert_eq!((lent.arrays[2][..4].to_vec(), lent.answers.clone()), (vec![6., 8., 10., 0.], vec![0, 99]));
    assert_eq!(run(&sheet, &scalars, &mut lent, 1, 0, 5), End { number: 0, p: 1, s: 0, steps: 0, zero: -1 });
}

/// The number of a direct call on arrays of these lengths.
fn number(call: Call, a: usize, b: usize, c: usize) -> i32 {
    direct(&call, &vec![1.; a], &vec![1.; b], &mut vec![1.; c]).number
}

#[test]
fn numbers_of_direct_calls() {
    let call = tight(sized(Routine::Gemm, 1, 1, 1));
    assert_eq!(number(call, 1, 1, 1), 0);
    assert_eq!(number(Call { transa: 88, ..call }, 1, 1, 1), 1);
    assert_eq!(number(Call { m: 2, ldc: 2, ..call }, 2, 1, 2), 8);
    assert_eq!(number(Call { m: 0, lda: 0, ..call }, 1, 1, 1), 8);
    assert_eq!(number(Call { m: 0, ..call }, 1, 1, 1), 0);
    assert_eq!(number(call, 1, 1, 0), 12);
    for bad in [-1, 65] {
        assert_eq!(number(Call { w: bad, ..call }, 1, 1, 1), 30);
        assert_eq!(number(Call { r: bad, ..call }, 1, 1, 1), 30);
    }
    assert_eq!(number(Call { w: 0, r: 0, ..call }, 1, 1, 1), 0);
}

/// The answer of the only record of a sheet, after one step.
fn answer(record: Vec<i32>) -> i32 {
    let mut lent = lent(1);
    let before = lent.arrays.clone();
    let end = run(&sheet(0, &[record]), &[1., 0.], &mut lent, 0, 0, 1);
    if lent.answers[0] != 0 {
        assert_eq!(end, End { number: 0, p: 1, s: 0, steps: 1, zero: -1 });
        assert_eq!(lent.arrays, before);
    }
    lent.answers[0]
}

/// The record with one word changed.
fn with(record: Vec<i32>, place: usize, word: i32) -> Vec<i32> {
    let mut record = record;
    record[place] = word;
    record
}

#[test]
fn numbers_of_records() {
    let good = record(tight(sized(Routine::Gemm, 1, 1, 1)));
    assert_eq!(answer(good.clone()), 0);
    assert_eq!(answer(with(good.clone(), 0, 7)), 31);
    assert_eq!(answer(with(good.clone(), 9, 3)), 32);
    assert_eq!(answer(with(with(good.clone(), 9, 3), 13, -1)), 32);
    assert_eq!(answer(with(good.clone(), 10, -1)), 33);
    assert_eq!(answer(with(good.clone(), 10, 10)), 33);
    assert_eq!(answer(with(good.clone(), 10, 9)), 7);
    assert_eq!(answer(with(with(good.clone(), 10, 10), 18, -1)), 33);
    assert_eq!(answer(with(with(good, 3, 88), 18, 65)), 30);
    let syrk = record(tight(sized(Routine::Syrk, 0, 1, 1)));
    assert_eq!(answer(with(syrk.clone(), 15, 0)), 32);
    assert_eq!(answer(with(with(syrk, 12, 5), 13, -1)), 0);
    let trmm = record(tight(sized(Routine::Trmm, 1, 1, 0)));
    assert_eq!(answer(with(trmm.clone(), 12, 0)), 32);
    assert_eq!(answer(with(with(trmm, 15, 1), 16, -1)), 0);
}

/// The number of a run that is refused; it writes nothing and keeps its cursor.
fn refused(sheet: &[i32], scalars: &[f64], answers: usize, p: i32, s: i32) -> i32 {
    let mut lent = lent(answers);
    let before = lent.clone();
    let end = run(sheet, scalars, &mut lent, p, s, 9);
    assert_eq!((end.p, end.s, end.steps, end.zero), (p, s, 0, -1));
    assert_eq!((lent.arrays, lent.answers), (before.arrays, before.answers));
    end.number
}

#[test]
fn numbers_of_runs() {
    assert_eq!(refused(&[0], &[], 0, 0, 0), 34);
    assert_eq!(refused(&[], &[], 0, 0, 0), 34);
    let mut odd = vec![0; 22];
    (odd[20], odd[21]) = (-20, 2);
    assert_eq!(refused(&odd, &[1.; 4], 2, 0, 0), 34);
    assert_eq!(trailer(&odd), None);
    assert_eq!(trailer(&[9, 9, 9, 3, 0]), Some((3, 0)));
    let one = sheet(0, &[record(row_m_call())]);
    assert_eq!(refused(&one, &[1.], 1, 0, 0), 35);
    assert_eq!(refused(&one, &[1.; 2], 0, 0, 0), 35);
    for cursor in [(1, 1), (-1, 0), (2, 0), (0, -1), (0, 3)] {
        assert_eq!(refused(&one, &[1.; 2], 1, cursor.0, cursor.1), 36);
    }
    let bad = sheet(0, &[with(record(row_m_call()), 0, 7)]);
    assert_eq!(refused(&bad, &[1.; 2], 1, 0, 1), 36);
}

#[test]
fn a_sheet_is_the_same_in_any_budgets() {
    let scalars = [2., 0.5, 1., 1., -1., 0.];
    let records = [
        record(Call { w: 2, ..tight(sized(Routine::Gemm, 2, 2, 2)) }),
        with(record(row_m_call()), 0, 7),
        record(Call { w: 1, ..tight(sized(Routine::Syr2k, 0, 2, 1)) }),
    ];
    let sheet = sheet(1, &records);
    let mut whole = lent(3);
    let end = run(&sheet, &scalars, &mut whole, 0, 0, u32::MAX);
    assert_eq!(end, End { number: 0, p: 3, s: 0, steps: 4, zero: -1 });
    assert_eq!(whole.answers, [0, 31, 0]);
    for budget in 1..4 {
        let mut parts = lent(3);
        let (mut p, mut s, mut steps) = (0, 0, 0);
        while p < 3 {
            let end = run(&sheet, &scalars, &mut parts, p, s, budget);
            (p, s, steps) = (end.p, end.s, steps + end.steps);
        }
        assert_eq!((s, steps), (0, 4));
        assert_eq!((&parts.arrays, &parts.answers), (&whole.arrays, &whole.answers));
    }
}

#[test]
fn zeros_on_the_diagonal() {
    let with_diagonal = |[x, y, z]: [f64; 3]| [x, 5., 5., 5., y, 5., 5., 5., z];
    let solve = tight(sized(Routine::Trsm, 3, 3, 0));
    let zero = |call: &Call, diagonal| direct(call, &with_diagonal(diagonal), &[], &mut [1.; 9]).zero;
    for letters in ["LLN", "LLT", "LUN", "LUT", "RLN", "RLT", "RUN", "RUT"] {
        let [side, uplo, transa] = [0, 1, 2].map(|place| letters.as_bytes()[place] as i32);
        let call = Call { side, uplo, transa, ..solve };
        assert_eq!(zero(&call, [0., 1., 1.]), 0);
        assert_eq!(zero(&call, [5e-324, 0., 0.]), 1);
        assert_eq!(zero(&call, [f64::NAN, -0., 0.]), 1);
        assert_eq!(zero(&call, [1., 1., -0.]), 2);
        assert_eq!(zero(&call, [1., 1., 1.]), -1);
        assert_eq!(zero(&Call { diag: LETTER_U, ..call }, [0.; 3]), -1);
        assert_eq!(zero(&Call { alpha: -0., ..call }, [0.; 3]), -1);
        assert_eq!(zero(&Call { m: 0, ..call }, [0.; 3]), -1);
        assert_eq!(zero(&Call { n: 0, ..call }, [0.; 3]), -1);
        assert_eq!(zero(&Call { w: 65, ..call }, [0.; 3]), -1);
        assert_eq!(zero(&Call { routine: Routine::Trmm, ..call }, [0.; 3]), -1);
    }
}

/// A run's report: a solve counts at the last of its three strips, and a refused one never.
#[test]
fn the_first_record_with_a_zero() {
    let sound = record(Call { w: 1, ..tight(sized(Routine::Trsm, 1, 3, 0)) });
    let singular = with(sound.clone(), 9, 2);
    let refused = with(singular.clone(), 18, 65);
    let sheet = sheet(0, &[refused, sound, singular.clone(), singular]);
    let zeros = |budgets: &[u32]| -> Vec<i32> {
        let (mut lent, mut cursor) = (lent(4), (0, 0));
        let mut run_on = |budget| {
            let end = run(&sheet, &[1.; 8], &mut lent, cursor.0, cursor.1, budget);
            cursor = (end.p, end.s);
            end.zero
        };
        budgets.iter().map(|&budget| run_on(budget)).collect()
    };
    assert_eq!(zeros(&[10, 9]), [2, -1]);
    assert_eq!(zeros(&[1, 3, 2, 0, 1, 2, 1, 1]), [-1, -1, -1, -1, 2, -1, 3, -1]);
    assert_eq!(zeros(&[6, 4]), [-1, 2]);
    assert_eq!(zeros(&[7, 3]), [2, 3]);
}

/// A of 2 by 2 with padding, and two columns as B, each with a C of its own and an element between them.
fn two_items() -> Many {
    let call = Call { lda: 3, ..tight(sized(Routine::Gemm, 2, 1, 2)) };
    Many { call: Call { transa: 'T' as i32, ..call }, b_stride: 2, c_stride: 3, items: 2 }
}

const PADDED: [f64; 5] = [1., 3., 9., 2., 4.];
const COLUMNS: [f64; 4] = [5., 7., 6., 8.];

/// Makes an accepted call, and gives the C of all items, the pack area and the elements copied.
fn made(given: Many, a: &[f64], b: &[f64]) -> ([f64; 6], [f64; 5], u64) {
    let (mut c, mut pack) = ([-1.; 6], [-2.; 5]);
    let ManyDone { number, copied } = many(&given, a, b, &mut c, &mut pack);
    assert_eq!(number, 0);
    (c, pack, copied)
}

#[test]
fn many_items() {
    let (given, call) = (two_items(), two_items().call);
    let kept = [-2.; 5];
    let values = [19., 43., -1., 22., 50., -1.];
    assert_eq!(made(given, &PADDED, &COLUMNS), (values, [1., 3., 2., 4., -2.], 4));
    let unpadded = Many { call: Call { lda: 2, ..call }, ..given };
    assert_eq!(made(unpadded, &[1., 3., 2., 4.], &COLUMNS), (values, kept, 0));
    let same_b = Many { b_stride: 0, ..given };
    assert_eq!(made(same_b, &PADDED, &COLUMNS).0, [19., 43., -1., 19., 43., -1.]);
    let added = Many { call: Call { alpha: 2., beta: -1., ..call }, ..given };
    assert_eq!(made(added, &PADDED, &COLUMNS).0, [39., 87., -1., 45., 101., -1.]);
    let transposed = Many { call: Call { transb: 'T' as i32, ldb: 3, ..call }, b_stride: 1, ..given };
    assert_eq!(made(transposed, &PADDED, &[5., 6., 0., 7., 8.]).0, values);
    let one_term = Many { call: Call { k: 1, ..call }, ..given };
    assert_eq!(made(one_term, &PADDED, &COLUMNS), ([5., 15., -1., 6., 18., -1.], [1., 3., -2., -2., -2.], 2));
}

#[test]
fn many_items_with_little_to_do() {
    let (given, call) = (two_items(), two_items().call);
    let (unchanged, kept) = ([-1.; 6], [-2.; 5]);
    assert_eq!(made(Many { items: 0, ..given }, &[], &[]), (unchanged, kept, 0));
    for (m, n) in [(0, 1), (2, 0)] {
        assert_eq!(made(Many { call: Call { m, n, ..call }, ..given }, &[], &[]), (unchanged, kept, 0));
    }
    for (k, alpha) in [(0, 1.), (2, 0.), (2, -0.)] {
        let start_only = Many { call: Call { k, alpha, beta: 3., ..call }, ..given };
        assert_eq!(made(start_only, &[], &[]), ([-3., -3., -1., -3., -3., -1.], kept, 0));
    }
}

/// The number of a call of many items on arrays of these lengths. Refused, it writes nothing.
fn number_of_many(given: Many, [a, b, c, pack]: [usize; 4]) -> i32 {
    let (mut c, mut pack) = (vec![7.; c], vec![7.; pack]);
    let done = many(&given, &vec![1.; a], &vec![1.; b], &mut c, &mut pack);
    if done.number != 0 {
        assert!(done.copied == 0 && c.iter().chain(&pack).all(|&x| x == 7.));
    }
    done.number
}

#[test]
fn numbers_of_many_items() {
    let (given, call, exact) = (two_items(), two_items().call, [5, 4, 5, 4]);
    let of_call = |call| number_of_many(Many { call, ..given }, exact);
    assert_eq!(of_call(call), 0);
    assert_eq!(of_call(Call { w: 65, transb: 88, ..call }), 30);
    assert_eq!(of_call(Call { transb: 88, m: -1, ..call }), 2);
    assert_eq!(of_call(Call { m: -1, n: -1, ..call }), 3);
    assert_eq!(of_call(Call { n: -1, k: -1, ..call }), 4);
    assert_eq!(of_call(Call { k: -1, lda: 1, ..call }), 5);
    assert_eq!(of_call(Call { lda: 1, ldb: 1, ..call }), 8);
    assert_eq!(of_call(Call { ldb: 1, ldc: 1, ..call }), 10);
    let bad_items = Many { items: 1001, b_stride: -1, ..given };
    assert_eq!(number_of_many(Many { call: Call { ldc: 1, ..call }, ..bad_items }, exact), 13);
    assert_eq!(number_of_many(bad_items, exact), 42);
    assert_eq!(number_of_many(Many { items: -1, ..given }, exact), 42);
    for items in [0, 2] {
        assert_eq!(number_of_many(Many { items, b_stride: -1, ..given }, [0; 4]), 43);
        assert_eq!(number_of_many(Many { items, c_stride: 1, ..given }, [0; 4]), 43);
    }
    assert_eq!(number_of_many(Many { c_stride: -1, call: Call { m: 0, ..call }, ..given }, exact), 43);
    assert_eq!(number_of_many(given, [4, 3, 4, 3]), 7);
    assert_eq!(number_of_many(given, [5, 3, 4, 3]), 9);
    assert_eq!(number_of_many(given, [5, 4, 4, 3]), 12);
    assert_eq!(number_of_many(given, [5, 4, 5, 3]), 44);
    assert_eq!(number_of_many(Many { items: 0, ..given }, [0; 4]), 0);
    let thousand = Many { items: 1000, b_stride: 0, ..given };
    assert_eq!(number_of_many(thousand, [5, 2, 2999, 4]), 0);
    assert_eq!(number_of_many(thousand, [5, 2, 2998, 4]), 12);
}

/// What a system gives, and its X, which keeps its content unless there is a solution.
fn solved(letter: char, a: &[i16], b: &[i16]) -> (i32, Vec<i16>) {
    let mut x = vec![77; b.len()];
    let number = isolve(letter as i32, b.len() as i32, a, b, &mut x);
    assert!(number == 0 || x.iter().all(|&x| x == 77));
    (number, x)
}

#[test]
fn integer_solutions() {
    assert_eq!(solved('L', &[3, 5, 9, 4], &[6, -2]), (0, vec![2, -3]));
    assert_eq!(solved('u', &[4, 9, 5, 3], &[-2, 6]), (0, vec![-3, 2]));
    assert_eq!(solved('U', &[-1, 8, 8, 2, -1, 8, 0, 3, -1], &[4, 9, -2]), (0, vec![-10, -3, 2]));
    assert_eq!(solved('l', &[1], &[-32768]), (0, vec![-32768]));
    assert_eq!(solved('L', &[-1], &[32767]), (0, vec![-32767]));
    assert_eq!(solved('L', &[-32768], &[-32768]), (0, vec![1]));
    assert_eq!(solved('L', &[-32768], &[0]), (0, vec![0]));
    assert_eq!(solved('L', &[1, -32768, 9, -32768], &[-32767, 0]), (0, vec![-32767, 32767]));
    assert_eq!(solved('U', &[32767, 9, 32767, 1], &[-1, -32768]), (-1, vec![77, 77]));
}

#[test]
fn no_integer_solution() {
    let none = |letter, a: &[i16], b: &[i16]| assert_eq!(solved(letter, a, b).0, -1, "{letter} {a:?} {b:?}");
    for (d, b) in [(2, 1), (2, -1), (-2, 1), (-2, -1), (3, 32767), (-32768, 1), (32767, -32768)] {
        none('L', &[d], &[b]);
        none('U', &[d], &[b]);
    }
    none('L', &[-1], &[-32768]);
    none('L', &[1, -1, 9, 1], &[1, 32767]);
    none('L', &[1, 1, 9, 1], &[1, -32768]);
    none('U', &[1, 9, -1, 1], &[32767, 1]);
    none('L', &[1, -32768, 9, -32768], &[-32768, 0]);
    none('L', &[2, 0, 9, 1], &[1, 0]);
    none('L', &[3, 5, 0, 4], &[6, -1]);
}

/// The number of a system of ones on lists of these lengths.
fn number_of_ones(code: i32, n: i32, [a, b, x]: [usize; 3]) -> i32 {
    isolve(code, n, &vec![1; a], &vec![1; b], &mut vec![1; x])
}

#[test]
fn numbers_of_integer_solutions() {
    for code in ['L', 'l', 'U', 'u'].map(|letter| letter as i32) {
        assert_eq!(number_of_ones(code, 1, [1, 1, 1]), 0);
        assert_eq!(number_of_ones(code, 64, [4096, 64, 64]), 0);
        assert_eq!(number_of_ones(code, 0, [0, 0, 0]), 39);
        assert_eq!(number_of_ones(code, 65, [4225, 65, 65]), 39);
        assert_eq!(number_of_ones(code, -1, [1, 1, 1]), 39);
        assert_eq!(number_of_ones(code + 256, 1, [0, 0, 0]), 39);
        for lengths in [[3, 2, 2], [5, 2, 2], [4, 1, 2], [4, 3, 2], [4, 2, 1], [4, 2, 3], [2, 2, 2], [0, 0, 0]] {
            assert_eq!(number_of_ones(code, 2, lengths), 40);
        }
        let of_two = |a: &[i16], b: &[i16]| isolve(code, 2, a, b, &mut [0; 2]);
        for zero in [[0, 1, 1, 1], [1, 1, 1, 0], [0, 1, 1, 2], [2, 1, 1, 0], [0; 4]] {
            assert_eq!([of_two(&zero, &[0; 2]), of_two(&zero, &[1; 2]), of_two(&zero, &[1; 3])], [41, 41, 40]);
        }
        assert_eq!(of_two(&[1, 0, 0, 1], &[1; 2]), 0);
    }
}
