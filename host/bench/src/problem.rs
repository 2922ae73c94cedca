//! What is timed: a routine with its options on square matrices.

use thamrunlek::Routine;

/// A call on matrices of order n without padding, α = 1 and, where the routine has it, β = 0.
pub struct Problem {
    pub routine: Routine,
    /// The codes in the order of the arguments.
    pub options: &'static [u8],
    pub n: usize,
    pub a: Vec<f64>,
    pub b: Vec<f64>,
    /// The output as it is before each batch of calls.
    pub start: Vec<f64>,
}

/// The option variants of a routine.
pub fn variants(routine: Routine) -> &'static [&'static [u8]] {
    match routine {
        Routine::Gemm => &[b"NN", b"NT", b"TN", b"TT"],
        Routine::Symm => &[b"LL", b"LU", b"RL", b"RU"],
        Routine::Syrk | Routine::Syr2k => &[b"LN", b"LT", b"UN", b"UT"],
        Routine::Trmm | Routine::Trsm => &[b"LLNN", b"LLTN", b"LUNN", b"LUTN", b"RLNN", b"RLTN", b"RUNN", b"RUTN"],
    }
}

/// Numbers between -0.5 and 0.5, the same in every run.
pub fn numbers(len: usize, seed: u64) -> Vec<f64> {
    let mut state = seed;
    let next = |_| {
        state = state.wrapping_mul(6364136223846793005).wrapping_add(1442695040888963407);
        (state >> 11) as f64 / (1u64 << 53) as f64 - 0.5
    };
    (0..len).map(next).collect()
}

impl Problem {
    pub fn new(routine: Routine, options: &'static [u8], n: usize) -> Problem {
        let mut a = numbers(n * n, 1);
        if routine == Routine::Trmm || routine == Routine::Trsm {
            // The output is the next call's input: a triangle close to the identity keeps its size.
            a.iter_mut().for_each(|x| *x *= 1e-7);
            (0..n).for_each(|i| a[i * n + i] = 1.0);
        }
        Problem { routine, options, n, a, b: numbers(n * n, 2), start: numbers(n * n, 3) }
    }

    /// GFLOP/s of a call that takes so many seconds; operations as they are usually counted.
    pub fn rate(&self, seconds: f64) -> f64 {
        let cube = (self.n * self.n * self.n) as f64;
        let operations = match self.routine {
            Routine::Gemm | Routine::Symm | Routine::Syr2k => 2.0 * cube,
            Routine::Syrk | Routine::Trmm | Routine::Trsm => cube,
        };
        operations / seconds * 1e-9
    }
}
