//! The rows of document 01's table, through the safe functions, an example of document 02, through the C function, what
//! solves and runs report, GEMM of many items, and integer solutions.

use thamrunlek::Diagonal::{NonUnit, Unit};
use thamrunlek::Side::{Left, Right};
use thamrunlek::Transpose::{No, Yes};
use thamrunlek::Triangle::{Lower, Upper};
use thamrunlek::{gemm, gemm_many, isolve, raw, run, symm, syr2k, syrk, trmm, trsm};
use thamrunlek::{Blocks, Cursor, Refusal, Solution, Solved};

const P: f64 = 9007199254740992.0;

/// Makes the call on a copy of the output for several strip widths and block sizes, and expects the result.
fn row(out: &[f64], result: &[f64], call: impl Fn(&mut [f64], Blocks) -> Result<(), Refusal>) {
    for (width, size) in [(0, 0), (64, 64), (1, 1), (2, 3), (3, 2)] {
        let mut c = out.to_vec();
        assert_eq!(call(&mut c, Blocks { width, size }), Ok(()));
        let same = |(x, y): (&f64, &f64)| x.to_bits() == y.to_bits() || (x.is_nan() && y.is_nan());
        assert!(c.iter().zip(result).all(same), "{c:?} is not {result:?}");
    }
}

#[test]
fn gemm_rows() {
    row(&[0.; 4], &[19., 43., 22., 50.], |c, blocks| {
        gemm(No, No, 2, 2, 2, 1., &[1., 3., 2., 4.], 2, &[5., 7., 6., 8.], 2, 0., c, 2, blocks)
    });
    row(&[0.], &[P], |c, blocks| gemm(No, No, 1, 1, 3, 1., &[P, 1., 1.], 1, &[1.; 3], 3, 0., c, 1, blocks));
    row(&[0.], &[P + 2.], |c, blocks| gemm(No, No, 1, 1, 3, 1., &[1., 1., P], 1, &[1.; 3], 3, 0., c, 1, blocks));
    row(&[f64::NAN], &[6.], |c, blocks| gemm(No, No, 1, 1, 1, 1., &[2.], 1, &[3.], 1, 0., c, 1, blocks));
    row(&[0.], &[f64::NAN], |c, blocks| gemm(No, No, 1, 1, 1, 1., &[f64::INFINITY], 1, &[0.], 1, 0., c, 1, blocks));
    row(&[3.], &[6.], |c, blocks| gemm(No, No, 1, 1, 1, 0., &[f64::INFINITY], 1, &[1.], 1, 2., c, 1, blocks));
}

#[test]
fn symm_row() {
    row(&[0., 0.], &[3., 5.], |c, blocks| {
        symm(Left, Upper, 2, 1, 1., &[1., 9., 2., 3.], 2, &[1., 1.], 2, 0., c, 2, blocks)
    });
}

#[test]
fn syrk_row() {
    row(&[10., 20., 30., 40.], &[11., 22., 30., 44.], |c, blocks| {
        syrk(Lower, No, 2, 1, 1., &[1., 2.], 2, 1., c, 2, blocks)
    });
}

#[test]
fn syr2k_row() {
    row(&[9.; 4], &[6., 10., 9., 16.], |c, blocks| {
        syr2k(Lower, No, 2, 1, 1., &[1., 2.], 2, &[3., 4.], 2, 0., c, 2, blocks)
    });
}

#[test]
fn trmm_row() {
    row(&[3., 4.], &[11., 4.], |b, blocks| trmm(Left, Upper, No, Unit, 2, 1, 1., &[9., 9., 2., 9.], 2, b, 2, blocks));
}

#[test]
fn trsm_rows() {
    let none = |solved| assert_eq!(solved, Solved { zero: None });
    row(&[3., 7.], &[3., 2.75], |b, blocks| {
        trsm(Left, Lower, No, NonUnit, 2, 1, 2., &[2., 1., 9., 4.], 2, b, 2, blocks).map(none)
    });
    row(&[1., P, -P], &[0., P, -P], |b, blocks| {
        trsm(Left, Upper, No, Unit, 3, 1, 1., &[1., 0., 0., 1., 1., 0., 1., 0., 1.], 3, b, 3, blocks).map(none)
    });
}

#[test]
fn sheet_row() {
    const N: i32 = 'N' as i32;
    let sheet = [1, 0, 0, N, N, 0, 1, 3, 1, 0, 0, 1, 1, 0, 1, 2, 0, 1, 1, 64, 0, 1];
    let (mut x, mut y, mut z, mut answers) = ([2.], [3., 4., 5.], [0.; 3], [7]);
    let mut next = |cursor, budget| run(&sheet, &[1., 0.], &mut x, &mut y, &mut z, &mut answers, cursor, budget);
    let first = next(Cursor::default(), 2).unwrap();
    let second = next(first.cursor, 1).unwrap();
    assert_eq!((first.cursor, first.steps), (Cursor { record: 0, strip: 2 }, 2));
    assert_eq!((second.cursor, second.steps), (Cursor { record: 1, strip: 0 }, 1));
    assert_eq!((z, answers), ([6., 8., 10.], [0]));
}

#[test]
fn refused_runs() {
    let refusal = |sheet: &[i32], answers: &mut [i32], record, strip| {
        let cursor = Cursor { record, strip };
        run(sheet, &[1., 0.], &mut [], &mut [], &mut [], answers, cursor, 1).unwrap_err()
    };
    let one = [[0; 20].as_slice(), &[0, 1]].concat();
    let refusals = [refusal(&[0], &mut [], 0, 0), refusal(&one, &mut [], 0, 0), refusal(&one, &mut [0], 1, 1)];
    assert_eq!(refusals.map(|refusal| refusal.number()), [34, 35, 36]);
    let texts = [
        "the sheet's last two words are not the index and the count of its records",
        "fewer answers than records, or fewer scalars than twice as many",
        "the cursor is at no record, or at no strip of an accepted one",
    ];
    assert_eq!(refusals.map(|refusal| refusal.to_string()), texts);
}

/// Document 02, K2: m = 0, transa N, lda = 0 and nothing else wrong gives 8, and lda = 1 gives 0.
#[test]
fn a_leading_dimension_is_at_least_1() {
    const N: i32 = 'N' as i32;
    let (one, mut c) = ([1.], [7.]);
    let (x, z) = (one.as_ptr(), c.as_mut_ptr());
    let number = |lda| unsafe { raw::tl_dgemm(N, N, 0, 1, 1, 1., x, 1, lda, x, 1, 1, 0., z, 1, 1, 64, 64) };
    assert_eq!([number(0), number(1)], [8, 0]);
    assert_eq!(c, [7.]);
}

/// Document 02, K11: the lowest diagonal index at which A is zero, whatever the direction of solving.
#[test]
fn a_solve_names_the_zero_on_the_diagonal() {
    let a = [4., 1., 1., 1., -0., 1., 1., 1., 0.];
    let options = |side| [(side, Lower, No), (side, Lower, Yes), (side, Upper, No), (side, Upper, Yes)];
    for (side, uplo, transa) in [Left, Right].into_iter().flat_map(options) {
        let zero = |diag, n, alpha, size| {
            let blocks = Blocks { width: 1, size };
            trsm(side, uplo, transa, diag, n, n, alpha, &a, 3, &mut [1.; 9], 3, blocks).map(|solved| solved.zero)
        };
        for size in [0, 1, 2, 64] {
            assert_eq!(zero(NonUnit, 3, 1., size), Ok(Some(1)));
            assert_eq!(zero(NonUnit, 1, 1., size), Ok(None));
            assert_eq!(zero(Unit, 3, 1., size), Ok(None));
            assert_eq!(zero(NonUnit, 3, 0., size), Ok(None));
            assert_eq!(zero(NonUnit, 0, 1., size), Ok(None));
        }
        assert_eq!(zero(NonUnit, 4, 1., 0).unwrap_err().number(), 9);
    }
}

/// Document 02, K11: a run names the first record whose solve had a zero, and a solve counts at its last strip.
#[test]
fn a_run_names_the_record_with_the_zero() {
    let [l, n] = ['L' as i32, 'N' as i32];
    let solve = |first| [6, l, l, n, 0, n, 1, 2, 0, 0, first, 1, 1, 0, 1, 0, 0, 0, 1, 0];
    let sheet = [&solve(0)[..], &solve(1), &solve(1), &[0, 3]].concat();
    let (mut x, mut y, mut answers) = ([2., 0.], [4., 6.], [7; 3]);
    let mut zero = |record, strip, budget| {
        let cursor = Cursor { record, strip };
        run(&sheet, &[1.; 6], &mut x, &mut y, &mut [], &mut answers, cursor, budget).unwrap().zero
    };
    assert_eq!([zero(0, 0, 3), zero(1, 1, 1), zero(2, 0, 1), zero(2, 1, 9)], [None, Some(1), None, Some(2)]);
    assert_eq!([zero(0, 0, 9), zero(3, 0, 9)], [Some(1), None]);
}

/// Document 02, K9: every C is what its own GEMM gives, and A is copied unless lda is m.
#[test]
fn many_items_share_an_a() {
    let (padded, b) = ([1., 3., 9., 2., 4.], [5., 7., 6., 8.]);
    for (width, size) in [(0, 0), (64, 64), (1, 1), (2, 3), (3, 2)] {
        let many = |a: &[f64], lda, b_stride, c_stride, items, pack: &mut [f64]| {
            let (mut c, blocks) = ([-1.; 6], Blocks { width, size });
            let copied =
                gemm_many(No, 2, 1, 2, 1., a, lda, &b, 2, b_stride, 0., &mut c, 2, c_stride, items, pack, blocks);
            copied.map(|copied| (c, copied)).map_err(|refusal| refusal.number())
        };
        let mut pack = [7.; 5];
        assert_eq!(many(&padded, 3, 2, 3, 2, &mut pack), Ok(([19., 43., -1., 22., 50., -1.], 4)));
        assert_eq!(pack, [1., 3., 2., 4., 7.]);
        assert_eq!(many(&[1., 3., 2., 4.], 2, 0, 3, 2, &mut []), Ok(([19., 43., -1., 19., 43., -1.], 0)));
        assert_eq!(many(&[], 3, 2, 3, 0, &mut []), Ok(([-1.; 6], 0)));
        assert_eq!(many(&padded, 3, -1, 3, 1001, &mut []), Err(42));
        assert_eq!(many(&padded, 3, 2, 1, 0, &mut []), Err(43));
        assert_eq!(many(&padded, 3, 3, 5, 2, &mut []), Err(9));
        assert_eq!(many(&padded, 3, 2, 5, 2, &mut []), Err(12));
        assert_eq!(many(&padded, 3, 2, 3, 2, &mut [7.; 3]), Err(44));
    }
}

/// Where nothing is copied, the pack area of the C function may be null.
#[test]
fn no_pack_area_where_none_is_needed() {
    const N: i32 = 'N' as i32;
    let (a, mut c) = ([2., 3.], [0.; 4]);
    let (x, z, none) = (a.as_ptr(), c.as_mut_ptr(), std::ptr::null_mut());
    let call = |lda, items| unsafe {
        raw::tl_dgemm_many(N, 2, 1, 1, 1., x, 2, lda, x, 2, 1, 1, 0., z, 4, 2, 2, items, none, 0, 0, 0)
    };
    let ends = [call(3, 0), call(3, 2), call(2, 2)].map(|end| (end.number, end.copied));
    assert_eq!(ends, [(0, 0), (44, 0), (0, 0)]);
    assert_eq!(c, [4., 6., 6., 9.]);
}

/// Document 02, K8: X is given, or it is said that there is none, and then the list keeps its content.
#[test]
fn integer_solutions() {
    let solved = |uplo, a: &[i16], b: &[i16]| {
        let mut x = [7, 7];
        isolve(uplo, 2, a, b, &mut x).map(|solution| (solution, x))
    };
    let (found, none) = (|x| Ok((Solution::Found, x)), Ok((Solution::None, [7, 7])));
    assert_eq!(solved(Lower, &[3, 5, 9, 4], &[6, -2]), found([2, -3]));
    assert_eq!(solved(Upper, &[4, 9, 5, 3], &[-2, 6]), found([-3, 2]));
    assert_eq!(solved(Lower, &[1, -32768, 0, -32768], &[-32767, 0]), found([-32767, 32767]));
    assert_eq!(solved(Lower, &[1, -32768, 0, -32768], &[-32768, 0]), none);
    assert_eq!(solved(Lower, &[3, 5, 9, 4], &[6, -1]), none);
    assert_eq!(solved(Upper, &[4, 9, 5, 3], &[-2, -7]), none);
}

#[test]
fn refused_integer_solutions() {
    let refusal = |n, a: &[i16], b: &[i16]| {
        let mut x = [7, 7];
        let refusal = isolve(Lower, n, a, b, &mut x).unwrap_err();
        assert_eq!(x, [7, 7]);
        refusal
    };
    let refusals = [refusal(65, &[0; 4], &[1]), refusal(2, &[0; 4], &[1]), refusal(2, &[2, 1, 1, 0], &[1, 1])];
    assert_eq!(refusals.map(|refusal| refusal.number()), [39, 40, 41]);
    let texts = [
        "the order is not 1 to 64",
        "A has not exactly n * n elements, or B or X not exactly n",
        "the diagonal of A has a zero",
    ];
    assert_eq!(refusals.map(|refusal| refusal.to_string()), texts);
}

/// The C function takes a code in either case of letter, and no other one.
#[test]
fn codes_of_integer_solutions() {
    let (one, mut x) = ([5], [7]);
    let mut number = |code| unsafe { raw::tl_isolve(code, 1, one.as_ptr(), 1, one.as_ptr(), 1, x.as_mut_ptr(), 1) };
    assert_eq!(['L', 'l', 'U', 'u'].map(|letter| number(letter as i32)), [0; 4]);
    assert_eq!([75, 77, 84, 86, 'N' as i32, 256 + 'L' as i32, -1].map(number), [39; 7]);
    assert_eq!(x, [1]);
}
