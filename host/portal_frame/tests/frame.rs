//! The frame is in equilibrium, its sheet has the bits of the direct calls, and a mechanism is named.

use portal_frame::{direct, sheet, Failure, Response, FACTOR, FACTORS};
use thamrunlek::Blocks;

/// Strip widths and block sizes.
const BLOCKS: [(i32, i32); 4] = [(0, 0), (64, 64), (3, 2), (1, 1)];
const BUDGETS: [u32; 3] = [1, 4, 1000];

/// The bits of all results.
fn bits(response: &Response) -> Vec<u64> {
    response.displacements.iter().chain(&response.moments).map(|value| value.to_bits()).collect()
}

#[test]
fn joints_and_storey_are_in_equilibrium() {
    let moments = direct::response(&FACTOR, Blocks::default()).unwrap().moments;
    for (column, factors) in moments.chunks(6).zip(FACTORS.chunks(3)) {
        let [ab, ba, bc, cb, cd, dc] = column.try_into().unwrap();
        let (wind, height) = (20.0 * factors[2], 4.0);
        for residual in [ba + bc, cb + cd, ab + ba + cd + dc + wind * height] {
            assert!(f64::abs(residual) < 1e-9, "{residual}");
        }
    }
}

#[test]
fn every_way_to_run_the_sheet_has_the_bits_of_the_direct_calls() {
    let direct = direct::response(&FACTOR, Blocks::default()).unwrap();
    for (w, r) in BLOCKS {
        for budget in BUDGETS {
            let finished = sheet::response(&FACTOR, w, r, budget).unwrap();
            assert_eq!(finished.answers, [0; 5]);
            assert_eq!(bits(&finished.response), bits(&direct), "w {w}, r {r}, budget {budget}");
        }
    }
}

/// With pendulum columns, hinged at both ends, nothing holds the sway u, and the rotations have the beam's stiffness
/// alone, 32382 and 16191.
#[test]
fn a_mechanism_is_named() {
    let d = f64::sqrt(32382.0);
    let factor = [0.0, 0.0, 0.0, 0.0, d, d / 2.0, 0.0, 0.0, d * f64::sqrt(0.75)];
    let (direct, sheet) = (Failure::Unheld("u"), Failure::Record(1));
    for (width, size) in BLOCKS {
        assert_eq!(direct::response(&factor, Blocks { width, size }), Err(direct));
        for budget in BUDGETS {
            assert_eq!(sheet::response(&factor, width, size, budget).err(), Some(sheet));
        }
    }
    assert_eq!(direct.to_string(), "nothing holds u: the frame is a mechanism");
    assert_eq!(sheet.to_string(), "record 1 solves with a zero on the diagonal: the frame is a mechanism");
}
