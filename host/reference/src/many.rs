//! GEMM of many items (document 02, K9): one A, not transposed, and many B, each with its own C, laid out at fixed
//! strides in two arrays.

use crate::check::{bad_width, gemm_places, short};
use crate::{direct, needed, Call, Done, Routine};

/// The arguments of a call, without its arrays.
#[derive(Clone, Copy, Debug)]
pub struct Many {
    /// what every item's GEMM is called with; its routine and its transa are not looked at
    pub call: Call,
    /// the elements from one B to the next
    pub b_stride: i32,
    /// the elements from one C to the next
    pub c_stride: i32,
    /// how many items there are
    pub items: i32,
}

/// What a call hands back.
#[derive(Clone, Copy, Debug, PartialEq, Eq)]
pub struct ManyDone {
    /// 0 if the call was accepted, else its number
    pub number: i32,
    /// the elements of A that were copied into the pack area
    pub copied: u64,
}

impl Many {
    /// Every item's GEMM: A is not transposed.
    pub fn gemm(&self) -> Call {
        Call { routine: Routine::Gemm, transa: 'N' as i32, ..self.call }
    }

    /// A is read: there are items, and m, n, k and α are not zero.
    pub fn reads_a(&self) -> bool {
        let Call { m, n, k, alpha, .. } = self.call;
        self.items != 0 && m != 0 && n != 0 && k != 0 && alpha != 0.0
    }

    /// The elements that the call copies if it is accepted. Where lda is m, A is read in its own place.
    pub fn copied(&self) -> usize {
        if self.reads_a() && self.call.lda != self.call.m {
            self.call.m as usize * self.call.k as usize
        } else {
            0
        }
    }

    /// The length of an array that ends with the last item's matrix, which needs so many elements. There are items.
    pub fn length(&self, stride: i32, needed: usize) -> usize {
        (self.items as usize - 1) * stride as usize + needed
    }
}

/// The number of the first bad argument of a call whose arrays have these lengths, or 0: 30, then GEMM's codes, sizes
/// and leading dimensions, 42, 43, then GEMM's arrays unless there are no items, and 44.
pub fn check_many(many: &Many, a_len: usize, b_len: usize, c_len: usize, pack_len: usize) -> i32 {
    let call = many.gemm();
    if bad_width(call.w) || bad_width(call.r) {
        return 30;
    }
    let number = gemm_places(&call);
    if number != 0 {
        return number;
    }
    if many.items < 0 || many.items > 1000 {
        return 42;
    }
    let needed_c = needed(call.ldc, call.m, call.n);
    if many.b_stride < 0 || many.c_stride < 0 || (many.c_stride as usize) < needed_c {
        return 43;
    }
    let (rows, cols) = call.stored_b();
    if many.reads_a() && short(a_len, call.lda, (call.m, call.k)) {
        return 7;
    }
    if many.reads_a() && b_len < many.length(many.b_stride, needed(call.ldb, rows, cols)) {
        return 9;
    }
    if many.items != 0 && !call.empty() && c_len < many.length(many.c_stride, needed_c) {
        return 12;
    }
    if pack_len < many.copied() {
        return 44;
    }
    0
}

/// Copies A's columns to the beginning of the pack area, without padding.
fn copy(call: &Call, a: &[f64], pack: &mut [f64]) {
    let (m, lda) = (call.m as usize, call.lda as usize);
    for l in 0..call.k as usize {
        for i in 0..m {
            pack[l * m + i] = a[l * lda + i];
        }
    }
}

/// The call. Refused, it writes nothing.
pub fn many(many: &Many, a: &[f64], b: &[f64], c: &mut [f64], pack: &mut [f64]) -> ManyDone {
    let number = check_many(many, a.len(), b.len(), c.len(), pack.len());
    if number != 0 {
        return ManyDone { number, copied: 0 };
    }
    let (call, copied) = (many.gemm(), many.copied());
    if copied != 0 {
        copy(&call, a, pack);
    }
    for i in 0..many.items as usize {
        // An array that is not tested may end before an item begins.
        let own_b = b.get(i * many.b_stride as usize..).unwrap_or(&[]);
        let own_c = c.get_mut(i * many.c_stride as usize..).unwrap_or(&mut []);
        assert_eq!(direct(&call, a, own_b, own_c), Done::of(0));
    }
    ManyDone { number, copied: copied as u64 }
}
