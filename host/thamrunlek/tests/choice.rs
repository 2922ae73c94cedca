//! The tests run on the build that they are meant for.

use std::env;

#[test]
fn the_build_in_use_is_the_one_that_the_environment_names() {
    let cpu = thamrunlek::cpu();
    assert!(["x86-64", "x86-64-v3", "x86-64-v4"].contains(&cpu));
    assert_eq!(env::var("THAMRUNLEK_CPU").unwrap_or(cpu.to_string()), cpu);
}
