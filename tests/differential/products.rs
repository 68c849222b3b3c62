//! The product that request 5 of document 02 promises of `mul_up`, and on which sheets the Rust's is another.
//!
//! In the comparison the `mul_up` that the cut judgement calls (rust.rs) runs the Rust's own, works out the promised
//! product, notes whether their bits differ, and answers the Rust's or, where that is asked for, the promised one.
//! What is noted and what is asked for belong to a thread, since sheets are run on many. Built with the cfg `timed`
//! the judgement calls the Rust's own instead, and nothing is noted.
use crate::directed::product;
use std::cell::Cell;

/// For finite factors the least double not below the exact product, worked out in whole numbers and not as the library
/// does it: +infinity past MAX, −MAX below −MAX, a zero answer +0. For others IEEE 754's product.
pub fn promised(a: f64, b: f64) -> f64 {
    if a.is_finite() && b.is_finite() { product(a, b, true) } else { a * b }
}

thread_local! {
    /// Whether `mul_up` answers the promised product.
    static PROMISED: Cell<bool> = const { Cell::new(false) };
    /// Whether a product differed since this was last cleared.
    static DIFFERED: Cell<bool> = const { Cell::new(false) };
}

/// What `mul_up` answers to two factors of which the Rust's product is given.
#[cfg_attr(timed, allow(dead_code))]
pub fn taken(a: f64, b: f64, of_rust: f64) -> f64 {
    let promised = promised(a, b);
    // a NaN counted as one
    if promised.to_bits() != of_rust.to_bits() && !(promised.is_nan() && of_rust.is_nan()) {
        DIFFERED.set(true);
    }
    if PROMISED.get() { promised } else { of_rust }
}

/// What a run gives with the Rust's own products, and whether one of them differs from the promised one. What was noted
/// before, as when the sheet was made, does not count.
pub fn noting<T>(run: impl FnOnce() -> T) -> (T, bool) {
    DIFFERED.set(false);
    let found = run();
    (found, DIFFERED.get())
}

/// What a run gives with the promised products in place of the Rust's own.
pub fn promising<T>(run: impl FnOnce() -> T) -> T {
    PROMISED.set(true);
    let found = run();
    PROMISED.set(false);
    found
}
