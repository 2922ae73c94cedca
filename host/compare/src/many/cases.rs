//! Made-up calls of GEMM of many items, and their arrays.

use crate::cases::{length, options, pair, value, width, with_leading, Values, ENDS, VALUES};
use crate::Random;
use reference::{needed, Call, Many, Routine};

/// A call and its arrays: of each pair the first is for the implementation under test, the second for the one that it
/// is held against. They agree where the call reads; no call reads the pack area.
#[derive(Clone)]
#[allow(missing_docs)]
pub struct Case {
    pub many: Many,
    pub a: [Vec<f64>; 2],
    pub b: [Vec<f64>; 2],
    pub c: [Vec<f64>; 2],
    pub pack: [Vec<f64>; 2],
}

/// An accepted call with random options, sizes to 12 (now and then to 70), widths and block sizes, and up to ten items.
/// `fix` may set some of them; leading dimensions, strides and arrays come after it.
pub fn accepted(random: &mut Random, fix: impl FnOnce(&mut Many)) -> Case {
    let top = if random.once_in(50) { 70 } else { 12 };
    let call = Call {
        m: random.from(0, top),
        n: random.from(0, top),
        k: random.from(0, top),
        w: width(random),
        r: width(random),
        ..options(random, Routine::Gemm)
    };
    let several = random.from(0, 10);
    let mut many = Many { call, b_stride: 0, c_stride: 0, items: random.pick(&[1, 2, several]) };
    fix(&mut many);
    many.call = with_leading(random, many.gemm());
    let (b, c) = (all_b(&many).needed() as i32, all_c(&many).needed() as i32);
    many.b_stride = random.pick(&[0, 1, b, b, b + 1, b + 7]);
    many.c_stride = random.pick(&[c, c, c + 1, c + 7]);
    let values = random.pick(&VALUES);
    fill(random, many, values)
}

/// One matrix for each item, in an array.
struct Matrices {
    many: Many,
    stride: i32,
    ld: i32,
    shape: (i32, i32),
}

/// Every B.
fn all_b(many: &Many) -> Matrices {
    Matrices { many: *many, stride: many.b_stride, ld: many.call.ldb, shape: many.gemm().stored_b() }
}

/// Every C.
fn all_c(many: &Many) -> Matrices {
    Matrices { many: *many, stride: many.c_stride, ld: many.call.ldc, shape: many.gemm().shape_of_output() }
}

impl Matrices {
    /// The elements that one of them needs.
    fn needed(&self) -> usize {
        needed(self.ld, self.shape.0, self.shape.1)
    }

    /// The shortest array that has all of them.
    fn len(&self) -> usize {
        self.many.length(self.stride, self.needed())
    }

    /// Which elements of an array are entries of one of them.
    fn entries(&self, len: usize) -> Vec<bool> {
        let mut entries = vec![false; len];
        for item in 0..self.many.items as usize {
            for j in 0..self.shape.1 as usize {
                let start = item * self.stride as usize + j * self.ld as usize;
                entries[start..start + self.shape.0 as usize].fill(true);
            }
        }
        entries
    }

    /// A pair of arrays: long enough if it is tested, and alike in the entries if they are read.
    fn fill(&self, random: &mut Random, tested: bool, reads: bool, values: Values) -> [Vec<f64>; 2] {
        let len = length(random, tested, if tested { self.len() } else { self.needed() });
        let read = if reads { self.entries(len) } else { vec![false; len] };
        pair(random, len, 1, |_, p| read[p], |random, _, _| value(random, values))
    }
}

/// Arrays for an accepted call.
fn fill(random: &mut Random, many: Many, values: Values) -> Case {
    let Call { m, k, lda, beta, .. } = many.call;
    let reads = many.reads_a();
    let a_len = length(random, reads, needed(lda, m, k));
    let reads_entry = |i, j| reads && i < m as usize && j < k as usize;
    let a = pair(random, a_len, lda, reads_entry, |random, _, _| value(random, values));
    let b = all_b(&many).fill(random, reads, reads, values);
    let writes = many.items != 0 && !many.gemm().empty();
    let c = all_c(&many).fill(random, writes, writes && beta != 0.0, values);
    let copied = many.copied();
    let pack_len = length(random, copied != 0, if copied != 0 { copied } else { m as usize * k as usize });
    let pack = pair(random, pack_len, 1, |_, _| false, |_, _, _| 0.0);
    Case { many, a, b, c, pack }
}

/// An argument that can be bad.
#[derive(Clone, Copy, Debug, PartialEq)]
#[allow(missing_docs)]
pub enum Argument {
    W,
    R,
    Transb,
    M,
    N,
    K,
    Lda,
    Ldb,
    Ldc,
    Items,
    StrideB,
    StrideC,
    A,
    B,
    C,
    Pack,
}
use Argument::*;

/// The arguments that can be bad, in the order in which they are tested, with their numbers.
pub const ARGUMENTS: [(i32, Argument); 16] = [
    (30, W),
    (30, R),
    (2, Transb),
    (3, M),
    (4, N),
    (5, K),
    (8, Lda),
    (10, Ldb),
    (13, Ldc),
    (42, Items),
    (43, StrideB),
    (43, StrideC),
    (7, A),
    (9, B),
    (12, C),
    (44, Pack),
];

/// An accepted call in which every argument is tested.
fn sound(random: &mut Random) -> Case {
    loop {
        let [m, n, k, items] = [(); 4].map(|_| random.from(1, 6));
        let case = accepted(random, |many| {
            many.call = Call { m, n, k, alpha: 1.5, ..many.call };
            many.items = items;
        });
        if case.many.copied() != 0 {
            return case;
        }
    }
}

/// Cuts a pair of arrays off: one element before its end, before its last item, behind its first, or all of it.
fn shorten(random: &mut Random, arrays: &mut [Vec<f64>; 2], matrices: &Matrices) {
    let (len, needed) = (matrices.len(), matrices.needed());
    let len = random.pick(&[len - 1, len - needed, needed.min(len - 1), 0]);
    arrays.iter_mut().for_each(|array| array.truncate(len));
}

/// Makes one argument of a sound case bad; `was` is the sound call.
fn spoil(random: &mut Random, case: &mut Case, was: &Many, argument: Argument) {
    let Case { many, a, b, c, pack } = case;
    let bad_width = random.pick(&[-1, 65, i32::MIN, i32::MAX]);
    let bad_size = random.pick(&[-1, -2, i32::MIN]);
    let under = |random: &mut Random, least: i32| random.pick(&[least - 1, least - 1, 0, -1, i32::MIN]);
    let cut = |array: &mut [Vec<f64>; 2], len: usize| array.iter_mut().for_each(|array| array.truncate(len));
    match argument {
        W => many.call.w = bad_width,
        R => many.call.r = bad_width,
        Transb => many.call.transb = random.pick(&[0, 88, 'A' as i32, 'U' as i32, -1, 256 + 'N' as i32]),
        M => many.call.m = bad_size,
        N => many.call.n = bad_size,
        K => many.call.k = bad_size,
        Lda => many.call.lda = under(random, was.call.m),
        Ldb => many.call.ldb = under(random, was.gemm().stored_b().0),
        Ldc => many.call.ldc = under(random, was.call.m),
        Items => many.items = random.pick(&[-1, 1001, i32::MIN, i32::MAX]),
        StrideB => many.b_stride = random.pick(&[-1, -was.b_stride - 1, i32::MIN]),
        StrideC => many.c_stride = under(random, all_c(was).needed() as i32),
        A => {
            let needed = needed(was.call.lda, was.call.m, was.call.k);
            cut(a, random.pick(&[needed - 1, 0]));
        }
        B => shorten(random, b, &all_b(was)),
        C => shorten(random, c, &all_c(was)),
        Pack => cut(pack, random.pick(&[was.copied() - 1, 0])),
    }
}

/// An accepted call in which these arguments were made bad.
pub fn spoiled(random: &mut Random, bad: &[Argument]) -> Case {
    let mut case = sound(random);
    let was = case.many;
    bad.iter().for_each(|&argument| spoil(random, &mut case, &was, argument));
    case
}

/// A call with numbers from the ends of their range, on short arrays; mostly refused.
pub(super) fn extreme(random: &mut Random) -> Case {
    let call = options(random, Routine::Gemm);
    let mut number = |likely: &[i32]| if random.once_in(8) { random.pick(&ENDS) } else { random.pick(likely) };
    let sizes = [0, 1, 1, 2, 2];
    let call = Call {
        transb: number(&[call.transb]),
        m: number(&sizes),
        n: number(&sizes),
        k: number(&sizes),
        lda: number(&[1, 2, 3]),
        ldb: number(&[1, 2, 3]),
        ldc: number(&[1, 2, 3]),
        w: number(&[0, 1, 2, 64]),
        r: number(&[0, 1, 2, 64]),
        ..call
    };
    let (b_stride, c_stride) = (number(&[0, 1, 4]), number(&[1, 2, 4, 5, 5]));
    let items = number(&[0, 1, 2, 3, 1000]);
    let mut array = |len: &[i32]| -> [Vec<f64>; 2] {
        let array: Vec<f64> = (0..random.pick(len)).map(|_| value(random, Values::Tame)).collect();
        [array.clone(), array]
    };
    let (a, b, c, pack) = (array(&[4, 5]), array(&[6, 14]), array(&[8, 14]), array(&[0, 3, 4]));
    Case { many: Many { call, b_stride, c_stride, items }, a, b, c, pack }
}
