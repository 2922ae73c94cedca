//! The library's runner and the plain machine agree bit for bit on call sheets, good and bad.

use compare::{calls, cases, compare_runs, differ, library, library_run, of_call, seed, sheet, solves};
use compare::{Case, Random, SheetCase, UNANSWERED};
use reference::machine::{run, trailer, RECORD};
use reference::{Call, ROUTINES};
use std::collections::BTreeSet;

/// Checks a case made from a generator of its own, and on a difference panics with what is needed to make it again.
fn hold<T>(test: &str, index: u64, check: impl FnOnce(&mut Random) -> Result<T, String>) -> T {
    check(&mut Random::of(test, index)).unwrap_or_else(|difference| {
        panic!("{difference}\nseed {} (THAMRUNLEK_SEED), test {test}, case {index}", seed())
    })
}

/// The first sheet that can be run from its beginning.
fn sound_sheet(random: &mut Random) -> SheetCase {
    loop {
        let case = sheet(random);
        if run(&case.sheet, &case.scalars, &mut case.lent.clone(), 0, 0, 0).number == 0 {
            return case;
        }
    }
}

/// Sheets, cursors and budgets of all kinds. Every number that a run or a record can have comes up, and every record as
/// the one with a zero.
#[test]
fn runs_of_any_kind() {
    let (mut of_runs, mut of_records, mut zeros) = (BTreeSet::new(), BTreeSet::new(), BTreeSet::new());
    for index in 0..20_000 {
        let (ends, lent) = hold("runs", index, |random| {
            let case = sheet(random);
            compare_runs(&case, random, &library_run, &run)
        });
        of_runs.extend(ends.iter().map(|end| end.number));
        of_records.extend(lent.answers);
        zeros.extend(ends.iter().map(|end| end.zero));
    }
    of_records.remove(&UNANSWERED);
    assert_eq!(of_runs, BTreeSet::from([0, 34, 35, 36]));
    assert_eq!(of_records, (0..=13).chain(30..=33).collect());
    assert_eq!(zeros, (-1..5).collect());
}

/// With every budget, each run through a sheet of solves reports the first of them that has its last strip in the run
/// and a zero in its direct call. Runs of any kind agree too.
#[test]
fn runs_of_solves() {
    for index in cases(5_000) {
        hold("solves", index as u64, |random| {
            let (solves, case) = solves(random);
            let (mut total, mut last_steps) = (0, vec![]);
            for Case { call, a, out, .. } in &solves {
                let done = library(call, &a[0], &[], &mut out[0].clone());
                total += if done.number == 0 { call.strips() as u32 } else { 1 };
                last_steps.push((total, done.zero != -1));
            }
            for budget in 1..=total {
                let (mut lent, mut p, mut s) = (case.lent.clone(), 0, 0);
                for made in (0..total).step_by(budget as usize) {
                    let counts = |&(step, zero): &(u32, bool)| zero && made < step && step <= made + budget;
                    let first = last_steps.iter().position(counts).map_or(-1, |record| record as i32);
                    let end = library_run(&case.sheet, &case.scalars, &mut lent, p, s, budget);
                    if end.zero != first {
                        return Err(format!("{budget} steps from {:?} report {} and not {first}", (p, s), end.zero));
                    }
                    (p, s) = (end.p, end.s);
                }
            }
            compare_runs(&case, random, &library_run, &run)
        });
    }
}

/// Where a matrix has no rows, the answer of a record is the number of its direct call.
#[test]
fn records_without_rows() {
    for routine in ROUTINES {
        calls::without_rows(routine, &mut |test, index, make| {
            let mut direct = make(&mut Random::of(test, index));
            let done = library(&direct.call, &direct.a[0], &direct.b[0], &mut direct.out[0]);
            hold(test, index, |random| {
                let SheetCase { sheet, scalars, lent } = of_call(random, direct.call);
                let (mut left, mut right) = (lent.clone(), lent);
                let end = library_run(&sheet, &scalars, &mut left, 0, 0, u32::MAX);
                assert_eq!(end, run(&sheet, &scalars, &mut right, 0, 0, u32::MAX));
                assert_eq!(left.answers, [done.number], "{:?}", direct.call);
                differ(&left, &right).map_or(Ok(()), Err)
            });
        });
    }
}

/// A record of width 0 has the strips of one of width 64: a step from any cursor ends alike and leaves the same, in the
/// library and in the plain machine, with 0 and with 64. At the finish other widths and block sizes leave the same too.
#[test]
fn records_of_width_0() {
    for routine in ROUTINES {
        calls::zeros(routine, &mut |test, index, make| {
            hold(test, index, |random| {
                let call = Call { w: 0, ..make(random).call };
                let SheetCase { sheet, scalars, lent } = of_call(random, call);
                let alike = |w, r| [&sheet[..sheet.len() - 4], &[w, r], &sheet[sheet.len() - 2..]].concat();
                let strips = (call.extent() + 63) / 64;
                for s in -1..=strips {
                    let [mut left, mut right, mut machine] = [(); 3].map(|_| lent.clone());
                    let end = library_run(&sheet, &scalars, &mut left, 0, s, 1);
                    assert_eq!(end.number, if (0..strips).contains(&s) { 0 } else { 36 });
                    assert_eq!(end, library_run(&alike(64, 64), &scalars, &mut right, 0, s, 1));
                    assert_eq!(end, run(&sheet, &scalars, &mut machine, 0, s, 1));
                    differ(&left, &right).or_else(|| differ(&left, &machine)).map_or(Ok(()), Err)?;
                }
                let (mut left, mut right) = (lent.clone(), lent);
                let other = alike(random.from(1, 63), random.from(1, 63));
                library_run(&sheet, &scalars, &mut left, 0, 0, u32::MAX);
                library_run(&other, &scalars, &mut right, 0, 0, u32::MAX);
                differ(&left, &right).map_or(Ok(()), Err)
            });
        });
    }
}

/// A list of runs from the beginning is the plain machine after the sum of their budgets: arrays, answers, cursor, the
/// total of steps and the first report. No run of it is refused.
#[test]
fn a_list_of_runs_is_the_machine_after_the_sum_of_its_budgets() {
    for index in 0..5_000 {
        hold("lists", index, |random| {
            let SheetCase { sheet, scalars, lent } = sound_sheet(random);
            let (mut left, mut right) = (lent.clone(), lent);
            let (mut p, mut s, mut steps, mut zero, mut budgets) = (0, 0, 0, -1, 0);
            for _ in 0..random.from(0, 8) {
                let budget = random.from(0, 7) as u32;
                let end = library_run(&sheet, &scalars, &mut left, p, s, budget);
                assert_eq!(end.number, 0);
                (p, s, steps, budgets) = (end.p, end.s, steps + end.steps, budgets + budget);
                zero = if zero == -1 { end.zero } else { zero };
            }
            let end = run(&sheet, &scalars, &mut right, 0, 0, budgets);
            assert_eq!((p, s, steps, zero), (end.p, end.s, end.steps, end.zero));
            differ(&left, &right).map_or(Ok(()), Err)
        });
    }
}

/// Two sheets that are alike except in their strip widths and block sizes leave the same arrays and answers.
#[test]
fn alike_sheets_finish_alike() {
    for index in 0..5_000 {
        hold("alike", index, |random| {
            let SheetCase { sheet, scalars, lent } = sound_sheet(random);
            let (first, count) = trailer(&sheet).expect("a sound trailer");
            let (mut left, mut right) = (lent.clone(), lent);
            for lent in [&mut left, &mut right] {
                let mut alike = sheet.clone();
                alike[first..first + RECORD * count].chunks_mut(RECORD).for_each(|record| {
                    (record[18], record[19]) = (random.from(0, 64), random.from(0, 64));
                });
                let end = library_run(&alike, &scalars, lent, 0, 0, u32::MAX);
                assert_eq!((end.number, end.p, end.s), (0, count as i32, 0));
            }
            differ(&left, &right).map_or(Ok(()), Err)
        });
    }
}
