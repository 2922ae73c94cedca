//! A reproducible source of made-up numbers, and of the cases that are made of them.

use std::{env, sync::OnceLock};

/// The seed of a run: the variable THAMRUNLEK_SEED, or a fixed one.
pub fn seed() -> u64 {
    static SEED: OnceLock<u64> = OnceLock::new();
    *SEED.get_or_init(|| match env::var("THAMRUNLEK_SEED") {
        Ok(text) => text.parse().unwrap_or_else(|_| panic!("THAMRUNLEK_SEED is not a number: {text}")),
        Err(_) => 20_260_101,
    })
}

/// The indices of a test's cases: all of them, or every n-th one if the variable THAMRUNLEK_EVERY is n, for a run that
/// has not the time for all.
pub fn cases(count: usize) -> impl Iterator<Item = usize> {
    let every = env::var("THAMRUNLEK_EVERY").map_or(1, |text| match text.parse() {
        Ok(every) if every > 0 => every,
        _ => panic!("THAMRUNLEK_EVERY is not a positive number: {text}"),
    });
    (0..count).step_by(every)
}

/// SplitMix64.
pub struct Random(u64);

impl Random {
    /// The generator of case number `index` of a test.
    pub fn of(test: &str, index: u64) -> Random {
        let mut random = Random(seed());
        for word in test.bytes().map(u64::from).chain([index]) {
            random.0 = random.bits() ^ word;
        }
        random
    }

    /// The next 64 bits.
    pub fn bits(&mut self) -> u64 {
        self.0 = self.0.wrapping_add(0x9e37_79b9_7f4a_7c15);
        let z = (self.0 ^ (self.0 >> 30)).wrapping_mul(0xbf58_476d_1ce4_e5b9);
        let z = (z ^ (z >> 27)).wrapping_mul(0x94d0_49bb_1331_11eb);
        z ^ (z >> 31)
    }

    /// A number from `low` to `high`, both included.
    pub fn from(&mut self, low: i32, high: i32) -> i32 {
        (low as i64 + (self.bits() % (high as i64 - low as i64 + 1) as u64) as i64) as i32
    }

    /// True once in `n` times.
    pub fn once_in(&mut self, n: i32) -> bool {
        self.from(1, n) == 1
    }

    /// One of the items.
    pub fn pick<T: Copy>(&mut self, items: &[T]) -> T {
        items[self.from(0, items.len() as i32 - 1) as usize]
    }

    /// A number of either sign with a full mantissa and an exponent of two from `low` to `high`.
    pub fn float(&mut self, low: i32, high: i32) -> f64 {
        let exponent = (self.from(low, high) + 1023) as u64;
        f64::from_bits((self.bits() & 0x800f_ffff_ffff_ffff) | (exponent << 52))
    }
}

/// What is done with a case: it is told the name of its test, its number there, and what makes it out of the numbers of
/// [`Random::of`] these two.
pub type Each<'e, Case> = &'e mut dyn FnMut(&str, u64, &dyn Fn(&mut Random) -> Case);

/// One of the cases is such. None is made after it.
pub fn some_case<Case>(tests: &[fn(Each<Case>)], is: impl Fn(&Case) -> bool) -> bool {
    let mut found = false;
    for test in tests {
        test(&mut |test, index, make| found = found || is(&make(&mut Random::of(test, index))));
    }
    found
}

/// Two of the items, in their order, by a number: every two come up, and every item with itself.
pub fn two_of<T: Copy>(items: &[T], number: u64) -> [T; 2] {
    let count = items.len();
    let (x, y) = (number as usize / count % count, number as usize % count);
    [items[x.min(y)], items[x.max(y)]]
}
