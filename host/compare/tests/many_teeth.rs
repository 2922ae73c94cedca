//! The comparison of GEMM of many items can fail: each of these plausible and false implementations is told apart from
//! the reference.

use compare::many::calls::{self, Calls};
use compare::many::{compare, Implementation};
use compare::some_case;
use reference::{check_many, direct, many, needed, Call, Many, ManyDone};

/// One of the calls of the comparison tells the implementation apart from the reference.
fn told_apart(wrong: Implementation) -> bool {
    let tests: [Calls; 3] = [calls::options_and_sizes, calls::bad_arguments, calls::ends_of_the_range];
    some_case(&tests, |case| compare(case, wrong, &many).is_err())
}

#[test]
fn the_reference_is_not_told_apart() {
    assert!(!told_apart(&many));
}

/// What is done after an accepted call: to the pack area, which may be too short for it, and to the elements copied.
type Afterwards = fn(&Many, &[f64], &mut [f64], &mut u64);

fn afterwards(change: Afterwards) -> impl Fn(&Many, &[f64], &[f64], &mut [f64], &mut [f64]) -> ManyDone {
    move |given, a, b, c, pack| {
        let mut done = many(given, a, b, c, pack);
        if done.number == 0 {
            change(given, a, pack, &mut done.copied);
        }
        done
    }
}

/// Copies the beginning of A as it is, if there is room.
fn copy(a: &[f64], pack: &mut [f64], len: usize) {
    if let Some(pack) = pack.get_mut(..len) {
        pack.copy_from_slice(&a[..len]);
    }
}

/// m times k.
fn size(given: &Many) -> usize {
    given.call.m as usize * given.call.k as usize
}

#[test]
fn wrong_copies() {
    let wrong: [(&str, Afterwards); 9] = [
        ("a copy where lda is m", |given, a, pack, copied| {
            if given.reads_a() && *copied == 0 {
                copy(a, pack, size(given));
            }
        }),
        ("columns with their padding", |given, a, pack, copied| {
            if *copied != 0 {
                copy(a, pack, needed(given.call.lda, given.call.m, given.call.k));
            }
        }),
        ("the rest cleared", |_, _, pack, copied| {
            if *copied != 0 {
                pack[*copied as usize..].fill(0.0);
            }
        }),
        ("A by rows", |given, a, pack, copied| {
            let (k, lda) = (given.call.k as usize, given.call.lda as usize);
            (0..*copied as usize).for_each(|p| pack[p] = a[p % k * lda + p / k]);
        }),
        ("0 after a copy", |_, _, _, copied| *copied = 0),
        ("m times k where lda is m", |given, _, _, copied| {
            *copied = if given.reads_a() { size(given) as u64 } else { 0 };
        }),
        ("m times k with nothing to do", |given, _, _, copied| {
            *copied = if given.call.lda != given.call.m { size(given) as u64 } else { 0 };
        }),
        ("counted for each item", |given, _, _, copied| *copied *= given.items as u64),
        ("no copy of one column", |given, _, _, copied| *copied *= (given.call.k != 1) as u64),
    ];
    for (name, change) in wrong {
        assert!(told_apart(&afterwards(change)), "{name}");
    }
    let refused_after_the_copy = |given: &Many, a: &[f64], b: &[f64], c: &mut [f64], pack: &mut [f64]| {
        let done = many(given, a, b, c, pack);
        if done.number == 12 {
            copy(a, pack, given.call.m as usize);
        }
        done
    };
    assert!(told_apart(&refused_after_the_copy));
}

/// Where an item has its B and its C, by its index.
type Places = fn(&Many, usize) -> (usize, usize);

/// Every item made by a direct call at its places; nothing is made outside the arrays.
fn placed(places: Places) -> impl Fn(&Many, &[f64], &[f64], &mut [f64], &mut [f64]) -> ManyDone {
    move |given, a, b, c, pack| {
        let done = many(given, a, b, &mut c.to_vec(), pack);
        let items = if done.number == 0 { given.items as usize } else { 0 };
        for (own_b, own_c) in (0..items).map(|i| places(given, i)) {
            let own_b = b.get(own_b..).unwrap_or(&[]);
            let own_c = c.get_mut(own_c..).unwrap_or(&mut []);
            direct(&given.gemm(), a, own_b, own_c);
        }
        done
    }
}

#[test]
fn wrong_places() {
    fn of_b(given: &Many, i: usize) -> usize {
        i * given.b_stride as usize
    }
    fn of_c(given: &Many, i: usize) -> usize {
        i * given.c_stride as usize
    }
    let wrong: [(&str, Places); 7] = [
        ("the next item's B", |given, i| (of_b(given, i + 1), of_c(given, i))),
        ("the next item's C", |given, i| (of_b(given, i), of_c(given, i + 1))),
        ("the next item's B and C", |given, i| (of_b(given, i + 1), of_c(given, i + 1))),
        ("the stride of B for C", |given, i| (of_b(given, i), of_b(given, i))),
        ("the stride of C for B", |given, i| (of_c(given, i), of_c(given, i))),
        ("the needed length as stride of C", |given, i| {
            (of_b(given, i), i * needed(given.call.ldc, given.call.m, given.call.n))
        }),
        ("the last item left out", |given, i| {
            let last = i + 1 == given.items as usize;
            (of_b(given, i), if last { usize::MAX } else { of_c(given, i) })
        }),
    ];
    for (name, places) in wrong {
        assert!(told_apart(&placed(places)), "{name}");
    }
    assert!(!told_apart(&placed(|given, i| (of_b(given, i), of_c(given, i)))));
}

#[test]
fn elements_between_items_cleared() {
    let wrong = |given: &Many, a: &[f64], b: &[f64], c: &mut [f64], pack: &mut [f64]| {
        let done = many(given, a, b, c, pack);
        let between = needed(given.call.ldc, given.call.m, given.call.n)..given.c_stride.max(0) as usize;
        if done.number == 0 && given.items > 1 {
            c.get_mut(between).unwrap_or(&mut []).fill(0.0);
        }
        done
    };
    assert!(told_apart(&wrong));
}

/// The lengths of A, of the arrays of all B and of all C, and of the pack area.
type Lengths = [usize; 4];

/// The number of a call.
type Number = fn(&Many, Lengths) -> i32;

/// A call with another number.
fn numbered(number: Number) -> impl Fn(&Many, &[f64], &[f64], &mut [f64], &mut [f64]) -> ManyDone {
    move |given, a, b, c, pack| {
        let lengths = [a.len(), b.len(), c.len(), pack.len()];
        ManyDone { number: number(given, lengths), ..many(given, a, b, c, pack) }
    }
}

/// The right number.
fn right(given: &Many, [a, b, c, pack]: Lengths) -> i32 {
    check_many(given, a, b, c, pack)
}

/// The first of two tests that does not pass.
fn first(number: i32, next: i32) -> i32 {
    if number == 0 {
        next
    } else {
        number
    }
}

/// The number where the condition holds.
fn given_if(condition: bool, number: i32) -> i32 {
    if condition {
        number
    } else {
        0
    }
}

/// 44 if the pack area is too short, the arrays being as long as they have to be.
fn only_44(given: &Many, pack: usize) -> i32 {
    given_if(right(given, [usize::MAX, usize::MAX, usize::MAX, pack]) == 44, 44)
}

/// What C needs. Sizes and leading dimensions are good.
fn needed_c(given: &Many) -> usize {
    needed(given.call.ldc, given.call.m, given.call.n)
}

#[test]
fn wrong_orders() {
    let wrong: [(&str, Number); 6] = [
        ("30 after the codes", |given, lengths| {
            let call = Call { w: 0, r: 0, ..given.call };
            first(right(&Many { call, ..*given }, lengths), right(given, lengths))
        }),
        ("42 before 13", |given, lengths| match right(given, lengths) {
            13 if !(0..=1000).contains(&given.items) => 42,
            number => number,
        }),
        ("42 after the arrays", |given, lengths| match right(given, lengths) {
            42 => first(right(&Many { items: 1, ..*given }, lengths), 42),
            number => number,
        }),
        ("43 before 42", |given, lengths| match right(given, lengths) {
            42 if right(&Many { items: 0, ..*given }, lengths) == 43 => 43,
            number => number,
        }),
        ("43 after the arrays", |given, lengths| match right(given, lengths) {
            43 => first(right(&Many { b_stride: 0, c_stride: needed_c(given) as i32, ..*given }, lengths), 43),
            number => number,
        }),
        ("44 before 12", |given, lengths| match right(given, lengths) {
            12 => first(only_44(given, lengths[3]), 12),
            number => number,
        }),
    ];
    for (name, number) in wrong {
        assert!(told_apart(&numbered(number)), "{name}");
    }
}

#[test]
fn wrong_counts_and_strides() {
    let wrong: [(&str, Number); 8] = [
        ("no items refused", |given, lengths| first(right(given, lengths), given_if(given.items == 0, 42))),
        ("1000 items refused", |given, lengths| first(right(given, lengths), given_if(given.items == 1000, 42))),
        ("1001 items taken", |given, lengths| {
            right(&Many { items: if given.items == 1001 { 1000 } else { given.items }, ..*given }, lengths)
        }),
        ("a negative stride of B taken", |given, lengths| {
            right(&Many { b_stride: given.b_stride.max(0), ..*given }, lengths)
        }),
        ("a stride of C tested only with items", |given, lengths| {
            right(&Many { c_stride: if given.items == 0 { i32::MAX } else { given.c_stride }, ..*given }, lengths)
        }),
        ("the needed length refused as stride of C", |given, lengths| {
            let number = right(given, lengths);
            first(number, given_if(number == 0 && given.c_stride as usize == needed_c(given), 43))
        }),
        ("a stride of C of m times n taken", |given, lengths| match right(given, lengths) {
            43 if given.b_stride >= 0 && given.c_stride as i64 >= given.call.m as i64 * given.call.n as i64 => 0,
            number => number,
        }),
        ("a stride of B below its needed length refused", |given, lengths| {
            let number = right(given, lengths);
            let (rows, cols) = given.gemm().stored_b();
            let below = number == 0 && (given.b_stride as usize) < needed(given.call.ldb, rows, cols);
            first(number, given_if(below, 43))
        }),
    ];
    for (name, number) in wrong {
        assert!(told_apart(&numbered(number)), "{name}");
    }
}

#[test]
fn wrong_lengths() {
    let wrong: [(&str, Number); 10] = [
        ("9 for the first item alone", |given, lengths| {
            right(&Many { b_stride: given.b_stride.min(0), ..*given }, lengths)
        }),
        ("12 for the first item alone", |given, [a, b, c, pack]| match right(given, [a, b, c, pack]) {
            12 if c >= needed_c(given) => right(given, [a, b, usize::MAX, pack]),
            number => number,
        }),
        ("12 before the end of the last stride", |given, lengths| {
            let number = right(given, lengths);
            let whole = number == 0 && !given.gemm().empty() && given.items > 0;
            first(number, given_if(whole && lengths[2] < given.items as usize * given.c_stride as usize, 12))
        }),
        ("arrays tested without items", |given, lengths| {
            right(&Many { items: if given.items == 0 { 1 } else { given.items }, ..*given }, lengths)
        }),
        ("A and B tested with alpha zero", |given, lengths| {
            right(&Many { call: Call { alpha: 1.0, ..given.call }, ..*given }, lengths)
        }),
        ("C not tested with alpha zero", |given, lengths| match right(given, lengths) {
            12 if given.call.alpha == 0.0 => 0,
            number => number,
        }),
        ("44 where lda is m", |given, lengths| {
            let number = right(given, lengths);
            first(number, given_if(number == 0 && given.reads_a() && lengths[3] < size(given), 44))
        }),
        ("44 without items", |given, lengths| {
            first(right(given, lengths), only_44(&Many { items: given.items.max(1), ..*given }, lengths[3]))
        }),
        ("44 with alpha zero", |given, lengths| {
            let copying = Many { call: Call { alpha: 1.0, ..given.call }, ..*given };
            first(right(given, lengths), only_44(&copying, lengths[3]))
        }),
        ("44 for an exact pack area", |given, lengths| {
            let number = right(given, lengths);
            let exact = number == 0 && given.copied() != 0 && lengths[3] == given.copied();
            first(number, given_if(exact, 44))
        }),
    ];
    for (name, number) in wrong {
        assert!(told_apart(&numbered(number)), "{name}");
    }
    assert!(!told_apart(&numbered(right)));
}
