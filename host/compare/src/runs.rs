//! Two runners on the same sheets.

use crate::{equal_or_nans, Random, SheetCase};
use reference::machine::{End, Lent};

/// A runner: the sheet, the scalars, what is lent, the cursor's record and strip, and the budget.
pub type Runner<'f> = &'f dyn Fn(&[i32], &[f64], &mut Lent, i32, i32, u32) -> End;

/// The library's runner.
pub fn library_run(sheet: &[i32], scalars: &[f64], lent: &mut Lent, p: i32, s: i32, budget: u32) -> End {
    let [x, y, z] = &mut lent.arrays;
    let end = thamrunlek::raw::run(sheet, scalars, x, y, z, &mut lent.answers, p, s, budget);
    End { number: end.number, p: end.p, s: end.s, steps: end.steps, zero: end.zero }
}

/// In what two lent states differ: an answer, or an element (two NaNs are equal).
pub fn differ(left: &Lent, right: &Lent) -> Option<String> {
    if left.answers != right.answers {
        return Some(format!("the answers are {:?} and not {:?}", left.answers, right.answers));
    }
    for (name, (x, y)) in ["X", "Y", "Z"].iter().zip(left.arrays.iter().zip(&right.arrays)) {
        if let Some(p) = (0..x.len()).find(|&p| !equal_or_nans(x[p], y[p])) {
            return Some(format!("element {p} of {name} is {:e} and not {:e}", x[p], y[p]));
        }
    }
    None
}

/// A cursor of any kind.
fn stray(random: &mut Random, count: i32) -> (i32, i32) {
    let p = random.from(-1, count.max(0) + 1);
    let s = random.from(-1, 4);
    (random.pick(&[p, p, p, i32::MIN, i32::MAX]), random.pick(&[0, s, s, i32::MIN, i32::MAX]))
}

/// Makes runs with both runners, each from where the last one ended or, now and then, from a stray cursor, and looks
/// after each of them for a difference in what they hand back and in what they leave. Ok has what the runs hand back
/// and what the last one leaves.
pub fn compare_runs(
    case: &SheetCase, random: &mut Random, tested: Runner, expected: Runner,
) -> Result<(Vec<End>, Lent), String> {
    let SheetCase { sheet, scalars, lent } = case;
    let (mut left, mut right) = (lent.clone(), lent.clone());
    let count = sheet.last().map_or(0, |&count| count.min(9));
    let (mut cursor, mut ends) = ((0, 0), vec![]);
    for _ in 0..random.from(1, 12) {
        let at = if random.once_in(5) { stray(random, count) } else { cursor };
        let few = random.from(0, 6) as u32;
        let budget = random.pick(&[few, few, few, few, 40, u32::MAX]);
        let end = tested(sheet, scalars, &mut left, at.0, at.1, budget);
        let right_end = expected(sheet, scalars, &mut right, at.0, at.1, budget);
        if end != right_end {
            return Err(format!("{budget} steps from {at:?} end as {end:?} and not as {right_end:?}"));
        }
        if let Some(difference) = differ(&left, &right) {
            return Err(format!("after {budget} steps from {at:?} {difference}"));
        }
        ends.push(end);
        if end.number == 0 {
            cursor = (end.p, end.s);
        }
    }
    Ok((ends, left))
}
