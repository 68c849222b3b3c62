//! A number as the sum of two doubles, added to in place.
use crate::raw::{call_cdouble_add, call_cdouble_add_scaled};

/// The sum `hi + lo` of two doubles, not evaluated: what the rounding of a sum leaves out is kept in `lo`.
///
/// ```
/// use ushnazar::CDouble;
///
/// let small = 2f64.powi(-60);
/// assert_eq!(1.0 + small - 1.0, 0.0);
/// let mut sum = CDouble { hi: 1.0, lo: 0.0 };
/// sum.add(small);
/// sum.add(-1.0);
/// assert_eq!(sum, CDouble { hi: 0.0, lo: small });
/// ```
#[repr(C)]
#[derive(Clone, Copy, Debug, Default, PartialEq)]
pub struct CDouble {
    /// The high part.
    pub hi: f64,
    /// The low part.
    pub lo: f64,
}

impl CDouble {
    /// Adds `v`: `hi` becomes `hi + v`, rounded, and what that rounding left out is added to `lo`.
    pub fn add(&mut self, v: f64) {
        call_cdouble_add(self, v);
    }

    /// Adds `c` times `b`: `c.hi * b`, with what its rounding left out, and `c.lo * b`, rounded.
    pub fn add_scaled(&mut self, c: CDouble, b: f64) {
        call_cdouble_add_scaled(self, c, b);
    }
}
