//! GEMM of many items: two implementations on the same made-up calls.

pub mod calls;
mod cases;

pub use cases::{accepted, spoiled, Argument, Case, ARGUMENTS};

use crate::{as_expected, failed, writes, Random};
use reference::{Call, Many, ManyDone};

/// An implementation: arguments, A, the B and the C of all items, and the pack area.
pub type Implementation<'f> = &'f dyn Fn(&Many, &[f64], &[f64], &mut [f64], &mut [f64]) -> ManyDone;

/// The library.
pub fn library(many: &Many, a: &[f64], b: &[f64], c: &mut [f64], pack: &mut [f64]) -> ManyDone {
    let Many { call, b_stride, c_stride, items } = *many;
    let Call { transb, m, n, k, alpha, beta, lda, ldb, ldc, w, r, .. } = call;
    let end = thamrunlek::raw::gemm_many(
        transb, m, n, k, alpha, a, lda, b, ldb, b_stride, beta, c, ldc, c_stride, items, pack, w, r,
    );
    ManyDone { number: end.number, copied: end.copied }
}

/// An accepted call writes element p of the array of all C.
fn writes_element(many: &Many, p: usize) -> bool {
    let (stride, ld) = (many.c_stride.max(1) as usize, many.call.ldc as usize);
    let (item, own) = (p / stride, p % stride);
    item < many.items as usize && writes(&many.gemm(), own % ld, own / ld)
}

/// Makes the call with both implementations. Ok has what they hand back; an error says in what they differ: in that, in
/// an element of a C or of the pack area that the call writes, or in one that was not to be touched.
pub fn compare(case: &Case, tested: Implementation, expected: Implementation) -> Result<ManyDone, String> {
    let Case { many, a, b, c, pack } = case;
    let [a_after, b_after, mut c_after, mut pack_after] = [a, b, c, pack].map(|pair| pair[0].clone());
    let done = tested(many, &a_after, &b_after, &mut c_after, &mut pack_after);
    let [mut right_c, mut right_pack] = [c, pack].map(|pair| pair[1].clone());
    let right_done = expected(many, &a[1], &b[1], &mut right_c, &mut right_pack);

    if done != right_done {
        return Err(format!("it hands back {done:?} and not {right_done:?}"));
    }
    as_expected("A", &a[0], &a_after, &a[0], |_| false)?;
    as_expected("the B of all items", &b[0], &b_after, &b[0], |_| false)?;
    let written = |p| done.number == 0 && writes_element(many, p);
    as_expected("the C of all items", &c[0], &c_after, &right_c, written)?;
    as_expected("the pack area", &pack[0], &pack_after, &right_pack, |p| (p as u64) < done.copied)?;
    Ok(done)
}

/// Compares the library with the reference on case number `index` of a test, made by `make` from a generator of its
/// own. On a difference it panics with what is needed to make the case again.
pub fn hold(test: &str, index: u64, make: impl FnOnce(&mut Random) -> Case) -> ManyDone {
    let case = make(&mut Random::of(test, index));
    compare(&case, &library, &reference::many).unwrap_or_else(|difference| {
        let lengths = [&case.a, &case.b, &case.c, &case.pack].map(|pair| pair[0].len());
        failed(&difference, test, index, &case.many, &lengths)
    })
}
