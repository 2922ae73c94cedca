//! What a step of a call sheet costs beside the strip that it makes: sheets of many tiny calls, each of one strip,
//! against the same calls made directly, by turns.

use crate::measure::{median, same_bits};
use crate::own::{Own, BLOCKS};
use crate::problem::{variants, Problem};
use crate::seconds;
use thamrunlek::{raw, Routine};

const N: i32 = 4;
const RECORDS: usize = 1000;
const ROUNDS: usize = 45;

/// A sheet of equal records: A is X, B is Y, and what is written is Z.
fn sheet(routine: i32, options: &[u8]) -> Vec<i32> {
    let code = |place: usize| options.get(place).map_or(0, |&letter| letter as i32);
    let codes = match routine {
        1 => [0, 0, code(0), code(1), 0],
        2 => [code(0), code(1), 0, 0, 0],
        3 | 4 => [0, code(0), code(1), 0, 0],
        _ => [code(0), code(1), code(2), 0, code(3)],
    };
    let b = if routine < 5 { 1 } else { 2 };
    let record = [&[routine][..], &codes, &[N, N, N, 0, 0, N, b, 0, N, 2, 0, N, 64, 64]].concat();
    let mut sheet = record.repeat(RECORDS);
    sheet.extend([0, RECORDS as i32]);
    sheet
}

/// Seconds for a step of a run through all of the sheet.
fn step(sheet: &[i32], scalars: &[f64], problem: &Problem, z: &mut [f64]) -> f64 {
    let (mut x, mut y, mut answers) = (problem.a.clone(), problem.b.clone(), [7; RECORDS]);
    let mut end = None;
    let time = seconds(1, || end = Some(raw::run(sheet, scalars, &mut x, &mut y, z, &mut answers, 0, 0, u32::MAX)));
    assert!(end.is_some_and(|end| end.steps == RECORDS as u32) && answers == [0; RECORDS], "the sheet is not run");
    time / RECORDS as f64
}

/// Prints the time of a step with nothing to do, and for each routine those of a step and of a direct call.
pub fn report() {
    let own = Own::linked();
    println!("ns: nanoseconds at n = {N}, medians of {ROUNDS} rounds of {RECORDS} steps or calls");
    for (routine, number) in Routine::ALL.into_iter().zip(1..) {
        let options = variants(routine)[0];
        let problem = Problem::new(routine, options, N as usize);
        let (sheet, scalars) = (sheet(number, options), [1.0, 0.0].repeat(RECORDS));
        let (mut z, mut steps, mut calls) = (problem.start.clone(), vec![], vec![]);
        for _ in 0..ROUNDS {
            z.copy_from_slice(&problem.start);
            steps.push(step(&sheet, &scalars, &problem, &mut z));
            let run = z.clone();
            z.copy_from_slice(&problem.start);
            calls.push(own.time(&problem, &mut z, RECORDS as u32, BLOCKS));
            assert!(same_bits(&z, &run), "the bits differ");
        }
        let (step, call) = (1e9 * median(steps), 1e9 * median(calls));
        println!("{:7} step {step:6.0} ns, direct call {call:6.0} ns, more by {:6.0} ns", routine.name(), step - call);
    }
    let problem = Problem::new(Routine::Gemm, b"NN", N as usize);
    let (sheet, scalars) = (sheet(1, b"NN"), [0.0, 1.0].repeat(RECORDS));
    let times = (0..ROUNDS).map(|_| step(&sheet, &scalars, &problem, &mut problem.start.clone()));
    println!("DGEMM with nothing to do: step {:6.0} ns", 1e9 * median(times.collect()));
}
