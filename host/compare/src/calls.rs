//! The calls of the comparison, routine by routine.

use crate::cases::{extreme, large, singular};
use crate::{accepted, cases, Case};
use reference::{Call, Routine};

/// What is done with a call.
pub type Each<'e> = crate::Each<'e, Case>;

/// The calls of one test for a routine.
pub type Calls = fn(Routine, Each);

/// The calls of all tests.
pub const ALL: [Calls; 10] = [
    options_and_sizes,
    widths_and_block_sizes,
    random,
    around_multiples_of_64,
    more_than_256_columns,
    zeros,
    beside_nans,
    zeros_on_the_diagonal,
    without_rows,
    ends_of_the_range,
];

/// Letters in both cases.
const SIDES: [char; 4] = ['L', 'l', 'R', 'r'];
const TRIANGLES: [char; 4] = ['L', 'l', 'U', 'u'];
const TRANSPOSES: [char; 6] = ['N', 'n', 'T', 't', 'C', 'c'];
const DIAGONALS: [char; 4] = ['U', 'u', 'N', 'n'];

/// All combinations of the routine's options, from these letters.
fn combinations(
    routine: Routine, sides: &[char], triangles: &[char], transposes: &[char], diagonals: &[char],
) -> Vec<Call> {
    let none = ['N'];
    let has_side = matches!(routine, Routine::Symm | Routine::Trmm | Routine::Trsm);
    let sides = if has_side { sides } else { &none };
    let triangles = if routine == Routine::Gemm { &none } else { triangles };
    let transposes_a = if routine == Routine::Symm { &none } else { transposes };
    let transposes_b = if routine == Routine::Gemm { transposes } else { &none };
    let diagonals = if routine.in_place() { diagonals } else { &none };
    let mut calls = vec![];
    for &side in sides {
        for &uplo in triangles {
            for &transa in transposes_a {
                for &transb in transposes_b {
                    for &diag in diagonals {
                        let [side, uplo, transa, transb, diag] = [side, uplo, transa, transb, diag].map(|x| x as i32);
                        calls.push(Call { side, uplo, transa, transb, diag, ..Call::new(routine) });
                    }
                }
            }
        }
    }
    calls
}

/// The combinations with one letter for each option.
fn plain_combinations(routine: Routine) -> Vec<Call> {
    combinations(routine, &['L', 'R'], &['L', 'U'], &['N', 'T'], &['U', 'N'])
}

/// The call takes the options of another.
fn take_options(call: &mut Call, from: &Call) {
    let Call { side, uplo, transa, transb, diag, .. } = *from;
    *call = Call { side, uplo, transa, transb, diag, ..*call };
}

/// Every option in upper and lower case, with every size from 0 to 20 in the place of m, n and k.
pub fn options_and_sizes(routine: Routine, each: Each) {
    let combinations = combinations(routine, &SIDES, &TRIANGLES, &TRANSPOSES, &DIAGONALS);
    assert!(63 * combinations.len() >= 1000);
    for index in cases(63 * combinations.len()) {
        let (options, size, place) = (&combinations[index / 63], index % 63 / 3, index % 3);
        each(&format!("options {routine:?}"), index as u64, &|random| {
            accepted(random, routine, |call| {
                take_options(call, options);
                *[&mut call.m, &mut call.n, &mut call.k][place] = size as i32;
            })
        });
    }
}

/// Every pair of a strip width and a block size.
pub fn widths_and_block_sizes(routine: Routine, each: Each) {
    for index in cases(65 * 65) {
        let (w, r) = (index as i32 / 65, index as i32 % 65);
        each(&format!("widths {routine:?}"), index as u64, &|random| {
            accepted(random, routine, |call| (call.w, call.r) = (w, r))
        });
    }
}

/// Twenty thousand random calls.
pub fn random(routine: Routine, each: Each) {
    for index in cases(20_000) {
        each(&format!("random {routine:?}"), index as u64, &|random| accepted(random, routine, |_| ()));
    }
}

/// Sizes around the multiples of 64.
pub fn around_multiples_of_64(routine: Routine, each: Each) {
    let combinations = plain_combinations(routine);
    for index in cases(48) {
        let options = &combinations[index % combinations.len()];
        each(&format!("large {routine:?}"), index as u64, &|random| {
            large(random, routine, |call| take_options(call, options))
        });
    }
}

/// Three calls for each combination of plain options, changed by their number.
fn three_of_each(name: &str, routine: Routine, each: Each, change: fn(usize, &mut Call)) {
    let combinations = plain_combinations(routine);
    for index in cases(3 * combinations.len()) {
        each(&format!("{name} {routine:?}"), index as u64, &|random| {
            large(random, routine, |call| {
                take_options(call, &combinations[index / 3]);
                change(index, call);
            })
        });
    }
}

/// So many columns that the library takes them in more than one turn, or just not, and few of everything else.
pub fn more_than_256_columns(routine: Routine, each: Each) {
    three_of_each("wide", routine, each, |index, call| {
        call.n = [256, 257, 330][index % 3];
        (call.m, call.k) = [(5, 17), (65, 3), (1, 65), (17, 5), (3, 1)][index % 5];
        (call.w, call.r) = [(0, 0), (64, call.r), (call.w, 0), (63, 64)][index % 4];
    });
}

/// A strip width of 0, a block size of 0, and both, with sizes around the multiples of 64.
pub fn zeros(routine: Routine, each: Each) {
    three_of_each("zeros", routine, each, |index, call| {
        (call.w, call.r) = [(0, call.r), (call.w, 0), (0, 0)][index % 3];
    });
}

/// TRMM and TRSM where the triangle that is not read, and a diagonal that counts as 1, hold nothing but NaN.
pub fn beside_nans(routine: Routine, each: Each) {
    if !routine.in_place() {
        return;
    }
    for (options, index) in plain_combinations(routine).iter().zip(0..) {
        for (round, size) in [1, 2, 7, 20, 65, 130].into_iter().enumerate() {
            each(&format!("beside NaNs {routine:?}"), 6 * index + round as u64, &|random| {
                let mut case = large(random, routine, |call| {
                    take_options(call, options);
                    (call.m, call.n) = (size, size);
                });
                let (call, ld) = (case.call, case.call.lda as usize);
                let unread = |i, j| if i == j { call.unit() } else { (i < j) != call.upper() };
                let a = &mut case.a[0];
                (0..a.len()).filter(|p| unread(p % ld, p / ld)).for_each(|p| a[p] = f64::NAN);
                case
            });
        }
    }
}

/// TRSM with zeros on the diagonal, for every block size and orders of up to several blocks; some calls are refused.
pub fn zeros_on_the_diagonal(routine: Routine, each: Each) {
    if routine != Routine::Trsm {
        return;
    }
    let combinations = combinations(routine, &['L', 'R'], &['L', 'U'], &['N', 'T'], &['N', 'N', 'U']);
    for index in cases(5 * 65 * combinations.len()) {
        let (options, r) = (&combinations[index % combinations.len()], index / combinations.len() % 65);
        each(&format!("zeros on the diagonal {routine:?}"), index as u64, &|random| {
            let top = random.pick(&[8, 150]);
            singular(random, top, |call| {
                take_options(call, options);
                call.r = r as i32;
            })
        });
    }
}

/// Sizes of 0 and 3 in all combinations; each matrix in turn, where it has no rows, has a leading dimension of 0 and of 1.
pub fn without_rows(routine: Routine, each: Each) {
    let combinations = plain_combinations(routine);
    for index in 0..48 * combinations.len() {
        let (options, sizes, matrix, ld) = (&combinations[index / 48], index / 6 % 8, index / 2 % 3, index as i32 % 2);
        let size = |bit: i32| if sizes >> bit & 1 == 0 { 0 } else { 3 };
        each(&format!("without rows {routine:?}"), index as u64, &|random| {
            let mut case = accepted(random, routine, |call| {
                take_options(call, options);
                (call.m, call.n, call.k) = (size(0), size(1), size(2));
            });
            let call = &mut case.call;
            if [call.stored_a(), call.stored_b(), call.shape_of_output()][matrix].0 == 0 {
                *[&mut call.lda, &mut call.ldb, &mut call.ldc][matrix] = ld;
            }
            case
        });
    }
}

/// Twenty thousand calls with numbers from the ends of their range, most of them refused.
pub fn ends_of_the_range(routine: Routine, each: Each) {
    for index in 0..20_000 {
        each(&format!("extreme {routine:?}"), index, &|random| extreme(random, routine));
    }
}
