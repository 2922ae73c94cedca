//! Makes all calls and sheets of the comparison, and its systems over whole numbers, with the library alone and prints
//! one line: the build in use, how many results there were, and their digest. The digest is the same for every build on
//! every machine.

use compare::{calls, compare_runs, isolve, library, library_run, many, sheet, Case, Random};
use reference::machine::{End, Lent};
use reference::{Done, ManyDone, ROUTINES};
use std::cell::RefCell;

/// A digest of numbers and elements; all NaNs are alike.
#[derive(Default)]
struct Digest {
    state: u64,
    results: u32,
}

impl Digest {
    fn add(&mut self, word: u64) {
        self.state = (self.state.rotate_left(5) ^ word).wrapping_mul(0x517c_c1b7_2722_0a95);
    }

    fn add_result(&mut self, numbers: &[i32], arrays: &[&[f64]]) {
        numbers.iter().for_each(|&number| self.add(number as u64));
        let bits = |x: &f64| if x.is_nan() { f64::NAN.to_bits() } else { x.to_bits() };
        arrays.iter().for_each(|array| array.iter().for_each(|x| self.add(bits(x))));
        self.results += 1;
    }
}

fn main() {
    let digest = RefCell::new(Digest::default());
    for routine in ROUTINES {
        for calls in calls::ALL {
            calls(routine, &mut |test, index, make| {
                let Case { call, a: [a, _], b: [b, _], out: [mut out, _] } = make(&mut Random::of(test, index));
                let Done { number, zero } = library(&call, &a, &b, &mut out);
                digest.borrow_mut().add_result(&[number, zero], &[&out]);
            });
        }
    }
    for calls in many::calls::ALL {
        calls(&mut |test, index, make| {
            let many::Case { many, a: [a, _], b: [b, _], c: [mut c, _], pack: [mut pack, _] } =
                make(&mut Random::of(test, index));
            let ManyDone { number, copied } = many::library(&many, &a, &b, &mut c, &mut pack);
            digest.borrow_mut().add_result(&[number, copied as i32], &[&c, &pack]);
        });
    }
    for calls in isolve::calls::ALL {
        calls(&mut |test, index, make| {
            let isolve::Case { uplo, n, a: [a, _], b, x: [mut x, _] } = make(&mut Random::of(test, index));
            let number = isolve::library(uplo, n, &a, &b, &mut x);
            let numbers: Vec<i32> = x.into_iter().map(i32::from).chain([number]).collect();
            digest.borrow_mut().add_result(&numbers, &[]);
        });
    }
    let recorded = |words: &[i32], scalars: &[f64], lent: &mut Lent, p: i32, s: i32, budget: u32| {
        let end = library_run(words, scalars, lent, p, s, budget);
        let End { number, p, s, steps, zero } = end;
        let numbers = [&[number, p, s, steps as i32, zero], &lent.answers[..]].concat();
        digest.borrow_mut().add_result(&numbers, &lent.arrays.each_ref().map(|array| &array[..]));
        end
    };
    for index in 0..20_000 {
        let mut random = Random::of("runs", index);
        let case = sheet(&mut random);
        compare_runs(&case, &mut random, &recorded, &library_run).expect("a run gives the same again");
    }
    let Digest { state, results } = digest.into_inner();
    println!("{}: {results} results, digest {state:016x}", thamrunlek::cpu());
}
