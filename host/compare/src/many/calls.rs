//! The calls of the comparison of GEMM of many items.

use super::cases::extreme;
use super::{accepted, spoiled, Argument, Case, ARGUMENTS};
use crate::{cases, two_of};

/// What is done with a call.
pub type Each<'e> = crate::Each<'e, Case>;

/// The calls of one test.
pub type Calls = fn(Each);

/// The calls of all tests.
pub const ALL: [Calls; 7] = [
    options_and_sizes,
    widths_and_block_sizes,
    random,
    around_multiples_of_64,
    a_thousand_items,
    bad_arguments,
    ends_of_the_range,
];

/// Every letter, with small and empty sizes, no item, one and some, and every kind of α.
pub fn options_and_sizes(each: Each) {
    const SIZES: [i32; 4] = [0, 1, 2, 7];
    for index in cases(6 * 64 * 4 * 4) {
        let pick = |unit: usize, count: usize| index / unit % count;
        each("options of many", index as u64, &|random| {
            accepted(random, |many| {
                many.call.transb = "NnTtCc".as_bytes()[pick(1, 6)] as i32;
                (many.call.m, many.call.n, many.call.k) = (SIZES[pick(6, 4)], SIZES[pick(24, 4)], SIZES[pick(96, 4)]);
                many.items = [0, 1, 2, 5][pick(384, 4)];
                many.call.alpha = [0.0, -0.0, 1.0, -1.5][pick(1536, 4)];
            })
        });
    }
}

/// Every pair of a strip width and a block size.
pub fn widths_and_block_sizes(each: Each) {
    for index in cases(65 * 65) {
        let (w, r) = (index as i32 / 65, index as i32 % 65);
        each("widths of many", index as u64, &|random| accepted(random, |many| (many.call.w, many.call.r) = (w, r)));
    }
}

/// Twenty thousand random calls.
pub fn random(each: Each) {
    for index in cases(20_000) {
        each("random of many", index as u64, &|random| accepted(random, |_| ()));
    }
}

/// Sizes around the multiples of 64, with up to three items.
pub fn around_multiples_of_64(each: Each) {
    const SIZES: [i32; 6] = [63, 64, 65, 127, 128, 129];
    for index in cases(48) {
        each("large of many", index as u64, &|random| {
            let sizes = [(); 3].map(|_| random.pick(&SIZES));
            let items = random.from(1, 3);
            accepted(random, |many| {
                [many.call.m, many.call.n, many.call.k] = sizes;
                (many.items, many.call.alpha) = (items, 0.75);
            })
        });
    }
}

/// As many items as there may be, and one fewer.
pub fn a_thousand_items(each: Each) {
    for index in cases(60) {
        each("a thousand", index as u64, &|random| {
            let sizes = [(); 3].map(|_| random.from(1, 6));
            accepted(random, |many| {
                [many.call.m, many.call.n, many.call.k] = sizes;
                (many.items, many.call.alpha) = (1000 - index as i32 % 2, 1.25);
            })
        });
    }
}

/// The arguments that are bad in a call of [`bad_arguments`], in the order of the tests, with their numbers. The two
/// may be the same.
pub fn which_are_bad(index: u64) -> [(i32, Argument); 2] {
    two_of(&ARGUMENTS, index)
}

/// Every argument bad alone, twenty times, and every two of them, forty times.
pub fn bad_arguments(each: Each) {
    for index in 0..20 * 16 * 16 {
        let bad = which_are_bad(index).map(|(_, argument)| argument);
        let bad = if bad[0] == bad[1] { &bad[..1] } else { &bad };
        each("bad of many", index, &|random| spoiled(random, bad));
    }
}

/// Twenty thousand calls with numbers from the ends of their range, most of them refused.
pub fn ends_of_the_range(each: Each) {
    for index in 0..20_000 {
        each("extreme of many", index, &extreme);
    }
}
