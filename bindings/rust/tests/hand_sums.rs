//! The sums that document 01 checks by hand on its sheet.
#![cfg(feature = "alloc")]
mod common;
use common::{both, changed, refusal, sized};
use ushnazar::*;

#[test]
fn right_side_1_nothing_holds() {
    let verdict = both(&changed(|parts| parts.right_side = 1.0));
    assert_eq!(verdict.proof.gap, 0.0);
    assert_eq!(verdict.outward, 0.0);
    assert!(!verdict.proof.holds);
    assert!(!verdict.declined);
}

#[test]
fn a_real_variable_without_limit() {
    let verdict = both(&changed(|parts| {
        parts.domain = Domain::Real;
        parts.cake.max = f64::INFINITY;
    }));
    assert_eq!(verdict.proof.gap, f64::NEG_INFINITY);
    assert_eq!(verdict.outward, f64::NEG_INFINITY);
    assert_eq!(verdict.proof.cut.to_bits(), 0);
    assert_eq!(verdict.proof.allowance.to_bits(), 0x39E8000000000000);
    assert!(!verdict.proof.holds);
    assert!(!verdict.declined);
}

#[test]
fn rows_128_pass_129_do_not() {
    assert_eq!(refusal(&sized(128, 1)), None);
    assert_eq!(refusal(&sized(129, 1)), Some(Refusal::Sizes));
}

#[test]
fn min_may_equal_max_and_not_pass_it() {
    assert_eq!(refusal(&changed(|parts| parts.cake.min = 1.0)), None);
    assert_eq!(refusal(&changed(|parts| parts.cake.min = 1.0 + f64::EPSILON)), Some(Refusal::Bounds));
}
