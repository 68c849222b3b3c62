//! The verdict and its certificate.
use crate::raw::{RawProof, RawVerdict};
#[cfg(feature = "alloc")]
use alloc::vec::Vec;

/// The kept numbers: the solver's judgement, and what it is made of.
#[derive(Clone, Copy, Debug, PartialEq)]
pub struct Proof {
    /// Whether the certificate holds by the solver's judgement, but for the rounding that the allowance speaks of. An
    /// order is not to be declined on it alone.
    pub holds: bool,
    /// How far the combined row's right side lies beyond the largest value that the row can take within the bounds, as
    /// the solver reckons it; −infinity where the row has no largest value, NaN where a number on the way is not finite.
    pub gap: f64,
    /// What the gap is weighed against: how far the variables' rooms beyond their bounds carry the row, less the cut, and
    /// the round-off of the sums. Each room is taken times its coefficient, rounded up whatever their size; where the
    /// solver's own product is not, this is not the solver's allowance.
    pub allowance: f64,
    /// The round-off withheld from the room of a leaving slack; 0 where a structural variable leaves, or the gap is not
    /// finite.
    pub cut: f64,
    /// How many coefficients counted as zero within their error.
    pub zero_within_error: usize,
    /// How many multipliers other than 0 were taken as 0, being within their error.
    pub multipliers_zeroed: usize,
    /// How many rows the certificate combines.
    pub rows: usize,
}

impl From<RawProof> for Proof {
    fn from(raw: RawProof) -> Self {
        Proof {
            holds: raw.holds != 0,
            gap: raw.gap,
            allowance: raw.allowance,
            cut: raw.cut,
            zero_within_error: raw.zero_within_error,
            multipliers_zeroed: raw.multipliers_zeroed,
            rows: raw.rows,
        }
    }
}

/// The answer to an accepted sheet.
///
/// `C` holds the certificate's lists: [`CertificateRef`] in the caller's buffers, `Certificate` in lists of its own,
/// `()` where there are none, as from a text.
#[derive(Clone, Copy, Debug, PartialEq)]
pub struct Verdict<C> {
    /// The kept numbers.
    pub proof: Proof,
    /// The gap over the widened ranges, with every step rounded so that it is never too high; or −infinity. Where it is
    /// above 0 no point in these ranges meets every row exactly.
    pub outward: f64,
    /// Whether the order may be declined: `holds`, and `outward` is above 0.
    pub declined: bool,
    /// The combined row, variable by variable.
    pub certificate: C,
}

impl<C> Verdict<C> {
    pub(crate) fn new(raw: RawVerdict, certificate: C) -> Self {
        Verdict { proof: raw.proof.into(), outward: raw.outward, declined: raw.declined != 0, certificate }
    }

    /// The same numbers with another certificate.
    pub fn with<D>(self, certificate: D) -> Verdict<D> {
        Verdict { proof: self.proof, outward: self.outward, declined: self.declined, certificate }
    }
}

/// The certificate's lists in the caller's buffers, one place for each variable: the structural ones, then the slacks.
#[derive(Clone, Copy, Debug, PartialEq)]
pub struct CertificateRef<'a> {
    /// The high parts of the variables' coefficients in the combined row.
    pub high: &'a [f64],
    /// The low parts: a coefficient is high + low.
    pub low: &'a [f64],
    /// The magnitudes of the terms of each coefficient, added up.
    pub magnitudes: &'a [f64],
    /// The count of the terms of each coefficient.
    pub terms: &'a [u32],
    /// How far the errors of the multipliers may carry each coefficient. There are none where the multipliers are
    /// unchecked, or their refinement did not converge.
    pub errors: Option<&'a [f64]>,
}

/// The certificate's lists, one place for each variable: the structural ones, then the slacks.
#[cfg(feature = "alloc")]
#[derive(Clone, Debug, PartialEq)]
pub struct Certificate {
    /// The high parts of the variables' coefficients in the combined row.
    pub high: Vec<f64>,
    /// The low parts: a coefficient is high + low.
    pub low: Vec<f64>,
    /// The magnitudes of the terms of each coefficient, added up.
    pub magnitudes: Vec<f64>,
    /// The count of the terms of each coefficient.
    pub terms: Vec<u32>,
    /// How far the errors of the multipliers may carry each coefficient. There are none where the multipliers are
    /// unchecked, or their refinement did not converge.
    pub errors: Option<Vec<f64>>,
}

#[cfg(feature = "alloc")]
impl From<CertificateRef<'_>> for Certificate {
    fn from(lists: CertificateRef<'_>) -> Self {
        Certificate {
            high: lists.high.into(),
            low: lists.low.into(),
            magnitudes: lists.magnitudes.into(),
            terms: lists.terms.into(),
            errors: lists.errors.map(Into::into),
        }
    }
}
