//! How calls are worked through: strip width and block size, from the environment.

use std::env;
use std::io::{stderr, Write};
use std::sync::OnceLock;
use thamrunlek::Blocks;

/// The strip width and block size of every call of this process.
pub fn blocks() -> Blocks {
    static BLOCKS: OnceLock<Blocks> = OnceLock::new();
    *BLOCKS.get_or_init(|| {
        let Blocks { width, size } = Blocks::default();
        Blocks { width: from_environment("THAMRUNLEK_W", width), size: from_environment("THAMRUNLEK_R", size) }
    })
}

/// What a variable says, or the default: where it is not set, and after a message where it says nothing usable.
fn from_environment(name: &str, default: i32) -> i32 {
    let Some(text) = env::var_os(name) else { return default };
    text.to_str().and_then(number).unwrap_or_else(|| {
        let _ = writeln!(stderr(), "thamrunlek: {name} is {text:?} and not a number from 0 to 64; {default} is taken");
        default
    })
}

/// The text as a number from 0 to 64.
fn number(text: &str) -> Option<i32> {
    text.parse().ok().filter(|number| (0..=64).contains(number))
}

#[cfg(test)]
mod tests {
    use super::number;

    #[test]
    fn only_numbers_from_0_to_64_are_taken() {
        assert_eq!(["0", "1", "7", "64"].map(number), [Some(0), Some(1), Some(7), Some(64)]);
        for text in ["", "65", "-1", "x", "8x", "3.5", "99999999999"] {
            assert_eq!(number(text), None);
        }
    }
}
