//! Sheets on which the product of a reach is rounded up where the Rust's `mul_up` errs: request 5 of document 02.
#![cfg(feature = "alloc")]
mod common;
use common::{both, parts, Parts};
use ushnazar::*;

/// One variable from −1 to 0 that may pass 0 by a tolerance; its entry and the tolerance make the reach.
fn reaching(entry: u64, tolerance: u64, right_side: f64) -> Parts {
    Parts {
        domain: Domain::Real,
        cake: Variable { min: -1.0, high_tolerance: f64::from_bits(tolerance), ..Variable::default() },
        slack: Variable { state: State::Basic { place: 0 }, value: right_side, ..Variable::default() },
        entries: vec![(0, f64::from_bits(entry)), (1, 1.0)],
        right_side,
        ..parts()
    }
}

const TINY: u64 = 0x1A70000000000000;

fn just_does_not_hold(sheet: &Sheet) {
    let verdict = both(sheet);
    assert!(!verdict.proof.holds);
    assert_eq!(verdict.proof.gap.to_bits(), 1);
    assert_eq!(verdict.proof.allowance.to_bits(), 1);
    assert_eq!(verdict.proof.cut.to_bits(), 0);
    assert_eq!(verdict.outward.to_bits(), 0);
    assert!(!verdict.declined);
}

/// Of the other variables' room and of the leaving one's. In the Rust the reach vanishes, so both hold with allowance 0.
#[test]
fn a_tiny_reach_does_not_vanish() {
    just_does_not_hold(&reaching(TINY, TINY, f64::from_bits(1)).sheet());
    let mut leaving = reaching(TINY, TINY, f64::from_bits(1));
    (leaving.cake.state, leaving.slack.state) = (State::Basic { place: 0 }, State::NonBasic);
    just_does_not_hold(&leaving.sheet());
}

/// The Rust's split overflows, and its allowance is the double below.
#[test]
fn a_wide_tolerance_is_rounded_up() {
    let verdict = both(&reaching(0x3FF0000000000001, 0x7E40000000000001, 1.0).sheet());
    assert_eq!(verdict.proof.allowance.to_bits(), 0x7E40000000000004);
}

/// The reach is MAX exactly, where the Rust has +infinity; the allowance is +infinity in both.
#[test]
fn a_reach_of_the_largest_double() {
    let verdict = both(&reaching(0x5FF0000000000000, 0x5FEFFFFFFFFFFFFF, 1.0).sheet());
    assert_eq!(verdict.proof.allowance, f64::INFINITY);
    assert!(!verdict.proof.holds);
}
