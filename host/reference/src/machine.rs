//! The plain machine for call sheets: trailer, records, steps and runs.

use crate::{check, loops, width, zero, Call, Routine, ROUTINES};

/// The words of a record.
pub const RECORD: usize = 20;

/// What a run returns: its number, the new cursor, the steps made and what it reports.
#[derive(Clone, Copy, Debug, PartialEq, Eq)]
pub struct End {
    /// 0, or the number of the refusal
    pub number: i32,
    /// the cursor's record
    pub p: i32,
    /// the cursor's strip
    pub s: i32,
    /// the steps made
    pub steps: u32,
    /// the first record with a zero on the diagonal of its solve, or -1
    pub zero: i32,
}

/// What a run is lent: the arrays X, Y and Z and the answers, one for each record and perhaps more.
#[derive(Clone, Debug)]
pub struct Lent {
    /// X, Y and Z
    pub arrays: [Vec<f64>; 3],
    /// the answers
    pub answers: Vec<i32>,
}

/// Where the part of an array that a matrix is starts.
#[derive(Clone, Copy)]
struct Part {
    array: i32,
    offset: i32,
}

/// A record as it is read: its call, and the parts for A, B and C.
struct Record {
    call: Call,
    a: Part,
    b: Part,
    c: Part,
}

/// The first record's index and the count, if the trailer is sound.
pub fn trailer(sheet: &[i32]) -> Option<(usize, usize)> {
    if sheet.len() < 2 {
        return None;
    }
    let index = sheet[sheet.len() - 2] as i64;
    let count = sheet[sheet.len() - 1] as i64;
    if index < 0 || count < 0 || index + RECORD as i64 * count != sheet.len() as i64 - 2 {
        return None;
    }
    Some((index as usize, count as usize))
}

/// Record p, or nothing if its routine is not 1 to 6. The trailer is sound and p below its count.
fn record(sheet: &[i32], scalars: &[f64], first: usize, p: usize) -> Option<Record> {
    let words = &sheet[first + RECORD * p..first + RECORD * (p + 1)];
    let routine = *ROUTINES.iter().find(|&&routine| routine as i32 == words[0])?;
    let call = Call {
        routine,
        side: words[1],
        uplo: words[2],
        transa: words[3],
        transb: words[4],
        diag: words[5],
        m: words[6],
        n: words[7],
        k: words[8],
        lda: words[11],
        ldb: words[14],
        ldc: words[17],
        w: words[18],
        r: words[19],
        alpha: scalars[2 * p],
        beta: scalars[2 * p + 1],
    };
    let a = Part { array: words[9], offset: words[10] };
    let b = Part { array: words[12], offset: words[13] };
    let c = Part { array: words[15], offset: words[16] };
    Some(Record { call, a, b, c })
}

impl Record {
    /// The matrices that the routine only reads.
    fn inputs(&self) -> Vec<Part> {
        match self.call.routine {
            Routine::Gemm | Routine::Symm | Routine::Syr2k => vec![self.a, self.b],
            Routine::Syrk | Routine::Trmm | Routine::Trsm => vec![self.a],
        }
    }

    /// The matrix that the routine writes.
    fn output(&self) -> Part {
        if self.call.routine.in_place() {
            self.b
        } else {
            self.c
        }
    }

    /// 32, then 33, then as a direct call; 0 if accepted.
    fn refusal(&self, arrays: &[Vec<f64>; 3]) -> i32 {
        let output = self.output();
        let mut matrices = self.inputs();
        if matrices.iter().any(|part| part.array == output.array) {
            return 32;
        }
        matrices.push(output);
        if matrices.iter().any(|part| !(0..=2).contains(&part.array)) {
            return 32;
        }
        let length = |part: Part| arrays[part.array as usize].len();
        if matrices.iter().any(|part| part.offset < 0 || part.offset as usize > length(*part)) {
            return 33;
        }
        let rest = |part: Part| length(part) - part.offset as usize;
        let b_len = if matrices.len() == 3 { rest(self.b) } else { 0 };
        check(&self.call, rest(self.a), b_len, rest(output))
    }
}

/// The number of record p: 31, or what its record gives; 0 if accepted. The trailer is sound and p below its count.
fn answer(sheet: &[i32], scalars: &[f64], arrays: &[Vec<f64>; 3], first: usize, p: usize) -> (i32, Option<Record>) {
    match record(sheet, scalars, first, p) {
        None => (31, None),
        Some(record) => (record.refusal(arrays), Some(record)),
    }
}

/// One step at the cursor (p, s), which a run has accepted and which is not at the end; the new cursor, and whether the
/// step was the last strip of a solve with a zero on the diagonal.
fn step(sheet: &[i32], scalars: &[f64], lent: &mut Lent, first: usize, p: usize, s: i32) -> ((usize, i32), bool) {
    let record = match answer(sheet, scalars, &lent.arrays, first, p) {
        (0, Some(record)) => record,
        (number, _) => {
            lent.answers[p] = number;
            return ((p + 1, 0), false);
        }
    };
    let call = &record.call;
    let before = lent.arrays.clone();
    let part = |part: Part| &before[part.array as usize][part.offset as usize..];
    if !call.empty() {
        let (d, w) = (call.extent() as usize, width(call.w) as usize);
        let from = s as usize * w;
        let to = d.min(from + w);
        let b: &[f64] = if record.inputs().len() == 2 { part(record.b) } else { &[] };
        let output = record.output();
        let out = &mut lent.arrays[output.array as usize][output.offset as usize..];
        loops::strip(call, part(record.a), b, out, from, to);
    }
    if s + 1 == call.strips() {
        lent.answers[p] = 0;
        ((p + 1, 0), zero(call, part(record.a)) != -1)
    } else {
        ((p, s + 1), false)
    }
}

/// 34, 35, 36, or 0 if a run from (p, s) is accepted.
fn refusal(sheet: &[i32], scalars: &[f64], lent: &Lent, p: i32, s: i32) -> i32 {
    let Some((first, count)) = trailer(sheet) else {
        return 34;
    };
    if lent.answers.len() < count || scalars.len() < 2 * count {
        return 35;
    }
    if p < 0 || p as usize > count {
        return 36;
    }
    if s != 0 {
        if p as usize == count {
            return 36;
        }
        match answer(sheet, scalars, &lent.arrays, first, p as usize) {
            (0, Some(record)) if s > 0 && s < record.call.strips() => (),
            _ => return 36,
        }
    }
    0
}

/// A run from the cursor (p, s): as many steps as the budget, or fewer if it finishes. Refused, it writes nothing.
pub fn run(sheet: &[i32], scalars: &[f64], lent: &mut Lent, p: i32, s: i32, budget: u32) -> End {
    let number = refusal(sheet, scalars, lent, p, s);
    if number != 0 {
        return End { number, p, s, steps: 0, zero: -1 };
    }
    let (first, count) = trailer(sheet).expect("the trailer is sound");
    let mut cursor = (p as usize, s);
    let mut steps = 0;
    let mut zero = -1;
    while steps < budget && cursor.0 < count {
        let (next, had_zero) = step(sheet, scalars, lent, first, cursor.0, cursor.1);
        if had_zero && zero == -1 {
            zero = cursor.0 as i32;
        }
        cursor = next;
        steps += 1;
    }
    End { number: 0, p: cursor.0 as i32, s: cursor.1, steps, zero }
}
