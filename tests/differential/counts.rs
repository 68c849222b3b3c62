//! How often each outcome came.
use crate::expected::{Expected, Outward};
use crate::rust::Walk;
use crate::sheet::Sheet;

/// In the order in which they are printed.
#[derive(Default)]
pub struct Counts(Vec<(String, u64)>);

impl Counts {
    pub fn add(&mut self, what: &str, times: u64) {
        let at = self.0.iter().position(|(name, _)| name == what).unwrap_or_else(|| {
            self.0.push((what.to_string(), 0));
            self.0.len() - 1
        });
        self.0[at].1 += times;
    }

    pub fn add_all(&mut self, other: &Counts) {
        for (what, times) in &other.0 {
            self.add(what, *times);
        }
    }

    pub fn print(&self) {
        for (what, count) in &self.0 {
            println!("{count:>10} {what}");
        }
    }

    /// The kept numbers of an accepted sheet.
    pub fn note(&mut self, sheet: &Sheet, expected: &Expected) {
        let Some(answer) = &expected.answer else {
            return;
        };
        let gap = answer.gap;
        let tried = answer.errors.is_some();
        let slack = answer.leaving >= sheet.structurals;
        let mut add = |what: &str, happened: bool| self.add(what, happened as u64);
        add("holds", answer.holds);
        add("holds not", !answer.holds);
        add("gap finite", gap.is_finite());
        add("gap -infinity", gap == f64::NEG_INFINITY);
        add("gap NaN", gap.is_nan());
        add("walk through", answer.walk == Walk::Through);
        add("walk spoilt", answer.walk == Walk::Spoilt);
        add("walk unlimited", answer.walk == Walk::Unlimited);
        add("unlimited with beta not finite", answer.walk == Walk::Unlimited && !answer.beta_finite);
        add("through with beta not finite", answer.walk == Walk::Through && !answer.beta_finite);
        add("gap overflowed", answer.walk == Walk::Through && answer.beta_finite && !gap.is_finite());
        add("gap equal to the allowance", gap == answer.allowance);
        add("cut 0", answer.cut == 0.0);
        add("cut not 0", answer.cut != 0.0);
        add("zero within error", answer.zero_within_error > 0);
        add("multipliers zeroed", answer.multipliers_zeroed > 0);
        add("error bounds", tried);
        add("checked without error bounds", sheet.checked != 0 && !tried);
        add("an error that is infinite", answer.errors.iter().flatten().any(|e| e.is_infinite()));
        add("leaving a slack", slack);
        add("leaving a structural variable", !slack);
        add("leaving slack of coefficient 0", slack && answer.high[answer.leaving] == 0.0);
        add("leaving up", sheet.leaving_up != 0);
        add("widened sides", !sheet.widened.is_empty());
        add("no row kept", answer.rows == 0);
    }

    /// The outward gap of an accepted sheet.
    pub fn note_outward(&mut self, holds: bool, outward: &Outward) {
        let mut add = |what: &str, happened: bool| self.add(what, happened as u64);
        let gap = outward.gap;
        add("outward gap above 0", gap > 0.0);
        add("outward gap 0", gap == 0.0);
        add("outward gap finite, below 0", gap.is_finite() && gap < 0.0);
        add("outward gap -infinity", gap == f64::NEG_INFINITY);
        add("a multiplier finite but for its low part", outward.reckoning.torn());
        add("declined", outward.declined);
        add("holds, outward gap finite, not above 0", holds && gap.is_finite() && gap <= 0.0);
        add("holds, outward gap -infinity", holds && gap == f64::NEG_INFINITY);
        add("holds not, outward gap above 0", !holds && gap > 0.0);
    }
}
