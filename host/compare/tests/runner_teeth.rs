//! The comparison of runners can fail: each of these plausible and false runners is told apart from the plain machine.

use compare::{calls, compare_runs, of_call, sheet, solves, Random, Runner, SheetCase};
use reference::machine::{run, trailer, End, Lent, RECORD};
use reference::ROUTINES;

/// The first of 2,000 sheets made up by `make` on which the runner differs from the plain machine.
fn told_apart_by(make: fn(&mut Random) -> SheetCase, wrong: Runner) -> Option<u64> {
    (0..2000).find(|&index| {
        let mut random = Random::of("runner teeth", index);
        let case = make(&mut random);
        compare_runs(&case, &mut random, wrong, &run).is_err()
    })
}

/// The first sheet of any kind.
fn told_apart(wrong: Runner) -> Option<u64> {
    told_apart_by(sheet, wrong)
}

/// The count of a sheet's records, 0 if its trailer is bad.
fn count(sheet: &[i32]) -> i32 {
    trailer(sheet).map_or(0, |(_, count)| count as i32)
}

/// The sheet with its records changed.
fn with_records(sheet: &[i32], change: impl Fn(&mut [i32])) -> Vec<i32> {
    let mut sheet = sheet.to_vec();
    if let Some((first, count)) = trailer(&sheet) {
        sheet[first..first + RECORD * count].chunks_mut(RECORD).for_each(change);
    }
    sheet
}

/// The first of two reports.
fn earlier(report: i32, next: i32) -> i32 {
    if report == -1 {
        next
    } else {
        report
    }
}

/// A runner that makes its steps one by one: each by `step`, from a cursor that is not at the end.
fn stepwise(
    step: impl Fn(&[i32], &[f64], &mut Lent, i32, i32) -> End,
) -> impl Fn(&[i32], &[f64], &mut Lent, i32, i32, u32) -> End {
    move |sheet, scalars, lent, p, s, budget| {
        let mut end = run(sheet, scalars, lent, p, s, 0);
        while end.number == 0 && end.steps < budget && end.p < count(sheet) {
            let next = step(sheet, scalars, lent, end.p, end.s);
            end = End { steps: end.steps + 1, zero: earlier(end.zero, next.zero), ..next };
        }
        end
    }
}

#[test]
fn the_machine_by_single_steps_is_not_told_apart() {
    let right = stepwise(|sheet, scalars, lent, p, s| run(sheet, scalars, lent, p, s, 1));
    assert_eq!(told_apart(&right), None);
}

#[test]
fn a_call_finished_at_its_first_strip_and_idle_steps_after_it() {
    let wrong = stepwise(|sheet, scalars, lent, p, s| {
        let mut first = lent.clone();
        if s == 0 {
            let widen = |record: &mut [i32]| record[18] = if (0..=64).contains(&record[18]) { 64 } else { record[18] };
            run(&with_records(sheet, widen), scalars, &mut first, p, 0, 1);
        }
        let end = run(sheet, scalars, lent, p, s, 1);
        lent.arrays = first.arrays;
        end
    });
    assert!(told_apart(&wrong).is_some());
}

#[test]
fn an_answer_at_the_first_strip() {
    let wrong = stepwise(|sheet, scalars, lent, p, s| {
        let end = run(sheet, scalars, lent, p, s, 1);
        lent.answers[p as usize] = if end.p == p { 0 } else { lent.answers[p as usize] };
        end
    });
    assert!(told_apart(&wrong).is_some());
}

#[test]
fn an_invented_step_count() {
    let wrong = |sheet: &[i32], scalars: &[f64], lent: &mut Lent, p, s, budget| {
        let end = run(sheet, scalars, lent, p, s, budget);
        End { steps: if end.number == 0 { budget } else { 0 }, ..end }
    };
    assert!(told_apart(&wrong).is_some());
}

#[test]
fn a_refused_record_without_a_step() {
    let wrong = |sheet: &[i32], scalars: &[f64], lent: &mut Lent, p, s, budget| {
        let end = run(sheet, scalars, lent, p, s, budget);
        let refused = if end.number == 0 { (p..end.p).filter(|&q| lent.answers[q as usize] != 0).count() } else { 0 };
        End { steps: end.steps - refused as u32, ..end }
    };
    assert!(told_apart(&wrong).is_some());
}

#[test]
fn finished_before_the_last_record() {
    let wrong = |sheet: &[i32], scalars: &[f64], lent: &mut Lent, p, s, budget| {
        let end = run(sheet, scalars, lent, p, s, budget);
        let last = end.number == 0 && (end.p + 1, end.s) == (count(sheet), 0);
        End { p: if last { end.p + 1 } else { end.p }, ..end }
    };
    assert!(told_apart(&wrong).is_some());
}

#[test]
fn an_answer_for_a_refused_run() {
    let wrong = |sheet: &[i32], scalars: &[f64], lent: &mut Lent, p, s, budget| {
        let end = run(sheet, scalars, lent, p, s, budget);
        if end.number != 0 {
            lent.answers.iter_mut().take(1).for_each(|answer| *answer = end.number);
        }
        end
    };
    assert!(told_apart(&wrong).is_some());
}

#[test]
fn further_answers_cleared() {
    let wrong = |sheet: &[i32], scalars: &[f64], lent: &mut Lent, p, s, budget| {
        let end = run(sheet, scalars, lent, p, s, budget);
        if end.number == 0 {
            lent.answers.iter_mut().skip(count(sheet) as usize).for_each(|answer| *answer = 0);
        }
        end
    };
    assert!(told_apart(&wrong).is_some());
}

#[test]
fn the_array_of_a_matrix_that_syrk_lacks() {
    let wrong = |sheet: &[i32], scalars: &[f64], lent: &mut Lent, p, s, budget| {
        let refuse = |record: &mut [i32]| {
            if record[0] == 3 && !(0..=2).contains(&record[12]) {
                record[15] = record[12];
            }
        };
        run(&with_records(sheet, refuse), scalars, lent, p, s, budget)
    };
    assert!(told_apart(&wrong).is_some());
}

#[test]
fn widths_tested_before_arrays() {
    let wrong = |sheet: &[i32], scalars: &[f64], lent: &mut Lent, p, s, budget| {
        let sound = |record: &mut [i32]| {
            if !(0..=64).contains(&record[18]) {
                (0..3).for_each(|matrix| (record[9 + 3 * matrix], record[10 + 3 * matrix]) = (matrix as i32, 0));
            }
        };
        run(&with_records(sheet, sound), scalars, lent, p, s, budget)
    };
    assert!(told_apart(&wrong).is_some());
}

/// A runner that takes the strip width or the block size of each record for another.
fn other_widths(word: usize, other: fn(i32) -> i32) -> impl Fn(&[i32], &[f64], &mut Lent, i32, i32, u32) -> End {
    move |sheet, scalars, lent, p, s, budget| {
        run(&with_records(sheet, |record| record[word] = other(record[word])), scalars, lent, p, s, budget)
    }
}

#[test]
fn a_width_or_block_size_of_0_refused_or_a_negative_one_taken() {
    for word in [18, 19] {
        assert!(told_apart(&other_widths(word, |w| if w == 0 { 65 } else { w })).is_some());
        assert!(told_apart(&other_widths(word, |w| if w < 0 { 64 } else { w })).is_some());
        assert_eq!(told_apart(&other_widths(word, |w| if w == 0 { 64 } else { w })), None);
    }
}

#[test]
fn a_width_of_0_as_63() {
    let told_apart = |other| {
        let mut apart = false;
        for routine in ROUTINES {
            calls::zeros(routine, &mut |test, index, make| {
                let random = &mut Random::of(test, index);
                let call = make(random).call;
                let case = of_call(random, call);
                apart |= compare_runs(&case, random, &other, &run).is_err();
            });
        }
        apart
    };
    assert!(told_apart(other_widths(18, |w| if w == 0 { 63 } else { w })));
    assert!(!told_apart(other_widths(18, |w| if w == 0 { 64 } else { w })));
}

#[test]
fn a_call_taken_up_at_its_first_strip() {
    let wrong = |sheet: &[i32], scalars: &[f64], lent: &mut Lent, p, s, budget| {
        let end = run(sheet, scalars, lent, p, s, 0);
        if end.number == 0 {
            return run(sheet, scalars, lent, p, 0, budget);
        }
        end
    };
    assert!(told_apart(&wrong).is_some());
}

/// Record p is a solve with a zero on the diagonal, as the arrays stand.
fn has_zero(sheet: &[i32], scalars: &[f64], lent: &Lent, p: i32) -> bool {
    run(sheet, scalars, &mut lent.clone(), p, 0, u32::MAX).zero == p
}

/// The first sheet of solves.
fn told_apart_by_solves(wrong: Runner) -> Option<u64> {
    told_apart_by(|random| solves(random).1, wrong)
}

#[test]
fn a_solve_that_counts_at_another_strip_than_its_last() {
    let counting = |counts: fn(i32, &End) -> bool| {
        stepwise(move |sheet, scalars, lent, p, s| {
            let end = run(sheet, scalars, lent, p, s, 1);
            End { zero: if counts(s, &end) && has_zero(sheet, scalars, lent, p) { p } else { -1 }, ..end }
        })
    };
    assert!(told_apart_by_solves(&counting(|s, _| s == 0)).is_some());
    assert!(told_apart_by_solves(&counting(|_, _| true)).is_some());
    assert_eq!(told_apart_by_solves(&counting(|_, end| end.s == 0)), None);
}

#[test]
fn a_refused_record_that_counts() {
    let wrong = stepwise(|sheet, scalars, lent, p, s| {
        let end = run(sheet, scalars, lent, p, s, 1);
        let accept = |record: &mut [i32]| (record[18], record[19]) = (record[18].max(0), record[19].max(0));
        let zero = end.s == 0 && has_zero(&with_records(sheet, accept), scalars, lent, p);
        End { zero: if zero { p } else { -1 }, ..end }
    });
    assert!(told_apart_by_solves(&wrong).is_some());
}

/// A runner that looks for zeros in the arrays before its run, or after it: at these records, by the one that it begins
/// with and the one that it ends at.
fn looking(after: bool, records: fn(i32, i32) -> Vec<i32>) -> impl Fn(&[i32], &[f64], &mut Lent, i32, i32, u32) -> End {
    move |sheet, scalars, lent, p, s, budget| {
        let before = lent.clone();
        let end = run(sheet, scalars, lent, p, s, budget);
        let records = if end.number == 0 { records(p, end.p) } else { vec![] };
        let seen = if after { lent } else { &before };
        let first = records.into_iter().find(|&p| has_zero(sheet, scalars, seen, p));
        End { zero: first.unwrap_or(-1), ..end }
    }
}

#[test]
fn another_record_than_the_first_that_the_run_finishes() {
    let last = looking(false, |from, to| (from..to).rev().collect());
    assert!(told_apart_by_solves(&last).is_some());
    let of_earlier_runs = looking(false, |_, to| (0..to).collect());
    assert!(told_apart_by_solves(&of_earlier_runs).is_some());
    let unfinished = looking(false, |from, to| (from..=to).collect());
    assert!(told_apart_by_solves(&unfinished).is_some());
    let right = looking(false, |from, to| (from..to).collect());
    assert_eq!(told_apart_by_solves(&right), None);
}

#[test]
fn a_diagonal_as_it_is_after_the_run() {
    let wrong = looking(true, |from, to| (from..to).collect());
    assert!(told_apart_by_solves(&wrong).is_some());
}

#[test]
fn a_report_from_a_refused_run() {
    let wrong = |sheet: &[i32], scalars: &[f64], lent: &mut Lent, p, s, budget| {
        let end = run(sheet, scalars, lent, p, s, budget);
        let zero = end.number != 0 && has_zero(sheet, scalars, lent, p);
        End { zero: if zero { p } else { end.zero }, ..end }
    };
    assert!(told_apart_by_solves(&wrong).is_some());
}
