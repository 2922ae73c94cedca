//! Integer solutions of triangular systems (document 02, K8).

use crate::libraries::Library;
use crate::measure::median;
use crate::own::Own;
use crate::problem::numbers;
use crate::seconds;

const ORDERS: [usize; 4] = [1, 4, 16, 64];
const CALLS: u32 = 1000;
const ROUNDS: usize = 45;

/// A system with a solution.
struct System {
    letter: char,
    n: usize,
    a: Vec<i16>,
    b: Vec<i16>,
    solution: Vec<i16>,
}

/// Whole numbers from -`most` to `most`.
fn integers(len: usize, seed: u64, most: i16) -> Vec<i16> {
    numbers(len, seed).iter().map(|x| (2.0 * x * most as f64).round() as i16).collect()
}

impl System {
    /// Entries and unknowns are so small that B fits into 16 bits at any order. The diagonal has no zero.
    fn new(letter: char, n: usize) -> System {
        let (mut a, solution) = (integers(n * n, 1, 9), integers(n, 2, 50));
        (0..n).for_each(|i| a[i * n + i] |= 1);
        let row = |i: usize| if letter == 'U' { i..n } else { 0..i + 1 };
        let b = (0..n).map(|i| row(i).map(|j| a[j * n + i] * solution[j]).sum()).collect();
        System { letter, n, a, b, solution }
    }

    /// Microseconds for a solution.
    fn time(&self, own: &Own) -> f64 {
        let mut x = vec![0; self.n];
        let (a, a_len, b, b_len) = (self.a.as_ptr(), self.a.len(), self.b.as_ptr(), self.b.len());
        let (found, x_len) = (x.as_mut_ptr(), x.len());
        let call = || unsafe { (own.isolve)(self.letter as i32, self.n as i32, a, a_len, b, b_len, found, x_len) };
        let time = 1e6 * seconds(CALLS, || assert_eq!(call(), 0));
        assert_eq!(x, self.solution);
        time
    }
}

/// The median microseconds of each build. The builds take turns, so that noise hits all alike.
fn medians(system: &System, builds: &[Library]) -> Vec<f64> {
    let builds: Vec<&Own> = builds.iter().filter_map(Library::own).collect();
    let mut times = vec![vec![]; builds.len()];
    for _ in 0..ROUNDS {
        times.iter_mut().zip(&builds).for_each(|(times, own)| times.push(system.time(own)));
    }
    times.into_iter().map(median).collect()
}

/// Prints a line for each triangle and order.
pub fn report(builds: &[Library]) {
    println!("microseconds for a system with a solution, medians of {ROUNDS} rounds of {CALLS} calls");
    let names: String = builds.iter().map(|build| format!("{:>12}", build.name)).collect();
    println!("{:>4}{:>4}{names}", "uplo", "n");
    for letter in ['L', 'U'] {
        for n in ORDERS {
            let times = medians(&System::new(letter, n), builds);
            println!("{letter:>4}{n:4}{}", times.iter().map(|time| format!("{time:12.3}")).collect::<String>());
        }
    }
}

#[cfg(test)]
mod tests {
    use super::*;

    #[test]
    fn the_systems_are_solved() {
        for letter in ['L', 'U'] {
            for n in ORDERS {
                assert!(System::new(letter, n).time(&Own::linked()) > 0.0);
            }
        }
    }
}
