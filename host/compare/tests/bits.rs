//! The library and the reference agree bit for bit on accepted calls, and on what a solve reports.

use compare::calls::{self, Calls};
use compare::hold;
use reference::{Routine, ROUTINES};

/// Makes the calls of a test for all routines, and expects each to be accepted and to have the reference's bits.
fn agree(calls: Calls) {
    for routine in ROUTINES {
        calls(routine, &mut |test, index, make| {
            assert_eq!(hold(test, index, make).number, 0, "{test}, case {index} is refused");
        });
    }
}

#[test]
fn all_options_and_sizes() {
    agree(calls::options_and_sizes);
}

#[test]
fn all_widths_and_block_sizes() {
    agree(calls::widths_and_block_sizes);
}

#[test]
fn twenty_thousand_random_calls_of_each_routine() {
    agree(calls::random);
}

#[test]
fn sizes_around_multiples_of_64() {
    agree(calls::around_multiples_of_64);
}

#[test]
fn more_columns_than_the_library_takes_at_a_time() {
    agree(calls::more_than_256_columns);
}

#[test]
fn a_strip_width_or_block_size_of_0() {
    agree(calls::zeros);
}

#[test]
fn a_triangle_beside_nans() {
    agree(calls::beside_nans);
}

/// Some of these calls are refused.
#[test]
fn zeros_on_the_diagonal() {
    calls::zeros_on_the_diagonal(Routine::Trsm, &mut |test, index, make| {
        hold(test, index, make);
    });
}
