//! Made-up call sheets and what their runs are lent.

use crate::cases::{options, singular, value, width, with_leading, Values, VALUES};
use crate::{Case, Random};
use reference::machine::{Lent, RECORD};
use reference::{needed, Call, Routine, ROUTINES};

/// A call sheet, its scalars, and what its runs find.
#[derive(Clone)]
#[allow(missing_docs)]
pub struct SheetCase {
    pub sheet: Vec<i32>,
    pub scalars: Vec<f64>,
    pub lent: Lent,
}

/// An answer that no record gives.
pub const UNANSWERED: i32 = -7;

type Record = [i32; RECORD];

/// The first words of A, B and C: the array, then the offset, then the leading dimension.
const A: usize = 9;
const B: usize = 12;
const C: usize = 15;

/// The words that a routine has.
fn words(routine: Routine) -> &'static [usize] {
    match routine {
        Routine::Gemm => &[0, 3, 4, 6, 7, 8, 9, 10, 11, 12, 13, 14, 15, 16, 17, 18, 19],
        Routine::Symm => &[0, 1, 2, 6, 7, 9, 10, 11, 12, 13, 14, 15, 16, 17, 18, 19],
        Routine::Syrk => &[0, 2, 3, 7, 8, 9, 10, 11, 15, 16, 17, 18, 19],
        Routine::Syr2k => &[0, 2, 3, 7, 8, 9, 10, 11, 12, 13, 14, 15, 16, 17, 18, 19],
        Routine::Trmm | Routine::Trsm => &[0, 1, 2, 3, 5, 6, 7, 9, 10, 11, 12, 13, 14, 18, 19],
    }
}

/// What stands in words that are not read.
fn noise(random: &mut Random) -> i32 {
    let any = random.bits() as i32;
    random.pick(&[any, any, i32::MIN, -1, 0, 1, 2, 3, 65, 'N' as i32, i32::MAX])
}

/// A good call, of sizes to `top`, most often in narrow strips.
fn call(random: &mut Random, top: i32) -> Call {
    let routine = random.pick(&ROUTINES);
    let (narrow, any) = (random.from(1, 4), width(random));
    let call = Call {
        m: random.from(0, top),
        n: random.from(0, top),
        k: random.from(0, top),
        w: random.pick(&[narrow, narrow, any]),
        r: width(random),
        ..options(random, routine)
    };
    with_leading(random, call)
}

/// The record of a good call. Its matrices lie anywhere in the arrays, which become as long as they ask for.
fn record(random: &mut Random, call: &Call, lengths: &mut [usize; 3]) -> Record {
    let output = random.from(0, 2);
    let inputs = [(); 2].map(|_| (output + random.from(1, 2)) % 3);
    let mut matrix = |array: i32, ld: i32, (rows, cols): (i32, i32)| {
        let offset = random.from(0, 6);
        let length = &mut lengths[array as usize];
        *length = (*length).max(offset as usize + needed(ld, rows, cols));
        [array, offset, ld]
    };
    let out = matrix(output, call.ld_of_output(), call.shape_of_output());
    let a = matrix(inputs[0], call.lda, call.stored_a());
    let has_b = words(call.routine).contains(&B) && !call.routine.in_place();
    let b = if has_b { matrix(inputs[1], call.ldb, call.stored_b()) } else { out };
    of_matrices(random, call, [a, b, out])
}

/// The record of a call with these arrays, offsets and leading dimensions for A, B and C.
fn of_matrices(random: &mut Random, call: &Call, [a, b, c]: [[i32; 3]; 3]) -> Record {
    let Call { side, uplo, transa, transb, diag, m, n, k, w, r, .. } = *call;
    let head = [call.routine as i32, side, uplo, transa, transb, diag, m, n, k];
    let mut record: Record = [&head[..], &a, &b, &c, &[w, r]].concat().try_into().expect("all words");
    (0..RECORD).filter(|word| !words(call.routine).contains(word)).for_each(|word| record[word] = noise(random));
    record
}

/// Changes a word that the routine has, most often to a bad one.
fn spoil(random: &mut Random, record: &mut Record, routine: Routine, lengths: &[usize; 3]) {
    let word = random.pick(words(routine));
    let was = record[word];
    record[word] = match word {
        0 => random.pick(&[0, 7, -1, i32::MIN, i32::MAX]),
        1..=5 => random.pick(&[0, 88, 'A' as i32, -1, was.wrapping_add(256)]),
        6..=8 => random.pick(&[-1, -2, i32::MIN, i32::MAX]),
        A | B | C => random.pick(&[-1, 3, 0, 1, 2, i32::MIN, i32::MAX]),
        10 | 13 | 16 => {
            let length = lengths.get(record[word - 1] as usize).map_or(0, |&length| length as i32);
            random.pick(&[-1, length, length, length - 1, length + 1, i32::MIN, i32::MAX])
        }
        11 | 14 | 17 => {
            let (under, over) = (was.wrapping_sub(1), was.wrapping_add(50));
            random.pick(&[-1, under, under, over, over, i32::MIN, i32::MAX])
        }
        _ => random.pick(&[-1, 65, i32::MIN, i32::MAX]),
    };
}

/// The sheet of these records after some words that are not read, with sound lengths.
fn lend(random: &mut Random, calls: &[Call], records: &[Record], lengths: [usize; 3], values: Values) -> SheetCase {
    let before = random.pick(&[0, 0, 1, 20, 27]);
    let mut sheet: Vec<i32> = (0..before).map(|_| noise(random)).collect();
    sheet.extend(records.iter().flatten());
    sheet.extend([before, records.len() as i32]);
    let lent = Lent {
        arrays: lengths.map(|length| (0..length).map(|_| value(random, values)).collect()),
        answers: records.iter().map(|_| UNANSWERED).collect(),
    };
    SheetCase { sheet, scalars: calls.iter().flat_map(|call| [call.alpha, call.beta]).collect(), lent }
}

/// Another trailer: pointing elsewhere, or nowhere, or cut off.
fn spoil_trailer(random: &mut Random, sheet: &mut Vec<i32>) {
    let end = sheet.len() - 2;
    let (index, count) = (sheet[end], sheet[end + 1]);
    let others = [(index + 1, count), (index, count + 1), (index - 20, count + 1), (index + 20, count - 1)];
    let (index, count) = random.pick(&others);
    sheet.truncate(end);
    sheet.extend([index, count]);
    if random.once_in(4) {
        sheet.truncate(random.from(0, 1) as usize);
    }
}

/// One fewer than is needed, or some more, or what is needed.
fn spare(random: &mut Random, length: usize) -> usize {
    match random.from(0, 19) {
        0 => length.saturating_sub(1),
        1..=4 => length + 2,
        _ => length,
    }
}

/// A sheet of up to five records, a third of them spoiled in one word or several; now and then with a bad trailer, or
/// too few answers or scalars.
pub fn sheet(random: &mut Random) -> SheetCase {
    let top = if random.once_in(8) { 30 } else { 9 };
    let calls: Vec<Call> = (0..random.from(0, 5)).map(|_| call(random, top)).collect();
    let mut lengths = [0; 3];
    let mut records: Vec<Record> = calls.iter().map(|call| record(random, call, &mut lengths)).collect();
    lengths.iter_mut().for_each(|length| *length += random.pick(&[0, 0, 1, 9]));
    for (record, call) in records.iter_mut().zip(&calls) {
        for _ in 0..random.pick(&[0, 0, 0, 0, 1, 4]) {
            spoil(random, record, call.routine, &lengths);
        }
    }
    let values = random.pick(&VALUES);
    let mut case = lend(random, &calls, &records, lengths, values);
    if random.once_in(15) {
        spoil_trailer(random, &mut case.sheet);
    }
    case.lent.answers.resize(spare(random, records.len()), UNANSWERED);
    case.scalars.resize(spare(random, 2 * records.len()), f64::NAN);
    case
}

/// A sheet of this call alone, whose leading dimensions may be bad.
pub fn of_call(random: &mut Random, call: Call) -> SheetCase {
    let mut lengths = [0; 3];
    let record = record(random, &call, &mut lengths);
    lend(random, &[call], &[record], lengths, Values::Tame)
}

/// Up to five solves with zeros on the diagonal, some of them refused, and a sound sheet of them: the A of each stands
/// behind the others' in one array, and its B in another. A last record clears the A of all.
pub fn solves(random: &mut Random) -> (Vec<Case>, SheetCase) {
    let solve = |random: &mut Random| {
        let diag = random.pick(&['N', 'N', 'N', 'U']) as i32;
        singular(random, 9, |call| call.diag = diag)
    };
    let solves: Vec<Case> = (0..random.from(1, 5)).map(|_| solve(random)).collect();
    let of_a = random.from(0, 2);
    let of_b = (of_a + random.from(1, 2)) % 3;
    let (mut arrays, mut records) = ([(); 3].map(|_| vec![]), vec![]);
    for Case { call, a, out, .. } in &solves {
        let mut matrix = |array: i32, ld: i32, elements: &[f64]| {
            let offset = arrays[array as usize].len() as i32;
            arrays[array as usize].extend(elements);
            [array, offset, ld]
        };
        let (a, b) = (matrix(of_a, call.lda, &a[0]), matrix(of_b, call.ldb, &out[0]));
        records.push(of_matrices(random, call, [a, b, b]));
    }
    let rows = arrays[of_a as usize].len() as i32;
    let ld = rows.max(1);
    let clear = Call { m: rows, n: 1, lda: ld, ldb: ld, alpha: 0.0, ..Call::new(Routine::Trmm) };
    records.push(of_matrices(random, &clear, [[of_b, 0, ld], [of_a, 0, ld], [of_a, 0, ld]]));
    let calls: Vec<Call> = solves.iter().map(|case| case.call).chain([clear]).collect();
    let mut case = lend(random, &calls, &records, [0; 3], Values::Tame);
    case.lent.arrays = arrays;
    (solves, case)
}

/// A sound sheet of forty good calls, in strips of one column or row.
pub fn long(random: &mut Random) -> SheetCase {
    let calls: Vec<Call> = (0..40).map(|_| Call { w: 1, alpha: 0.25, beta: 0.5, ..call(random, 60) }).collect();
    let mut lengths = [0; 3];
    let records: Vec<Record> = calls.iter().map(|call| record(random, call, &mut lengths)).collect();
    lend(random, &calls, &records, lengths, Values::Tame)
}
