//! Document 01's outward gap in its five steps, and the exact gap that it is never above.
use crate::directed::{product, sum};
use crate::exact::Exact;
use crate::rust::{self, Kept};
use crate::sheet::Sheet;

/// What both are reckoned from.
pub struct Reckoning<'a> {
    sheet: &'a Sheet,
    /// The kept rows, ascending, with their multipliers.
    kept: Vec<Kept>,
    /// The low and the high edge of each variable.
    ranges: Vec<(f64, f64)>,
}

/// A running sum to which a product is added, both rounded to the same side.
fn add_product(sum_so_far: f64, a: f64, b: f64, up: bool) -> f64 {
    sum(sum_so_far, product(a, b, up), up)
}

impl<'a> Reckoning<'a> {
    /// Of a sheet that no question refuses.
    pub fn of(sheet: &'a Sheet) -> Self {
        let (kept, ranges) = rust::combined(sheet);
        Reckoning { sheet, kept, ranges }
    }

    pub fn rows(&self) -> usize {
        self.kept.len()
    }

    /// "1. A kept y with a part not finite: −infinity."
    fn spoilt(&self) -> bool {
        self.kept.iter().any(|row| !row.high.is_finite() || !row.low.is_finite())
    }

    /// The low part alone.
    pub fn torn(&self) -> bool {
        self.kept.iter().any(|row| row.high.is_finite() && !row.low.is_finite())
    }

    pub fn outward(&self) -> f64 {
        if self.spoilt() {
            return f64::NEG_INFINITY;
        }
        let Some(largest) = self.largest() else {
            return f64::NEG_INFINITY;
        };
        // "5. B adds hi, then lo, times right side of kept rows, rounded down."
        let mut right = 0.0;
        for row in &self.kept {
            let side = self.sheet.right_sides[row.row];
            right = add_product(right, row.high, side, false);
            right = add_product(right, row.low, side, false);
        }
        // "The gap is B − M rounded down; −infinity if B is −infinity or M +infinity."
        if right == f64::NEG_INFINITY || largest == f64::INFINITY {
            return f64::NEG_INFINITY;
        }
        sum(right, -largest, false)
    }

    /// Step 2: cl and cu of every variable.
    fn coefficients(&self) -> Vec<(f64, f64)> {
        let mut found = vec![(0.0, 0.0); self.ranges.len()];
        for row in &self.kept {
            for at in self.sheet.part(row.row) {
                let entry = self.sheet.entries[at];
                let (low, high) = &mut found[self.sheet.columns[at]];
                for part in [row.high, row.low] {
                    *low = add_product(*low, part, entry, false);
                    *high = add_product(*high, part, entry, true);
                }
            }
        }
        found
    }

    /// Steps 2 to 4: M, or none where they answer −infinity.
    fn largest(&self) -> Option<f64> {
        let mut largest = 0.0;
        for ((cl, cu), &(low, high)) in self.coefficients().into_iter().zip(&self.ranges) {
            if cl.is_infinite() || cu.is_infinite() {
                return None;
            }
            if cl == 0.0 && cu == 0.0 {
                continue;
            }
            if cu > 0.0 && high == f64::INFINITY || cl < 0.0 && low == f64::NEG_INFINITY {
                return None;
            }
            let mut term = f64::NEG_INFINITY;
            for edge in [low, high].into_iter().filter(|edge| edge.is_finite()) {
                for end in [cl, cu] {
                    term = term.max(product(end, edge, true));
                }
            }
            largest = sum(largest, term, true);
        }
        Some(largest)
    }

    /// "A kept multiplier counts as hi + lo, exactly." None where there is no exact gap.
    fn exact(&self) -> Option<Exact> {
        if self.spoilt() {
            return None;
        }
        let mut gap = Exact::default();
        let mut coefficients = vec![Exact::default(); self.ranges.len()];
        for row in &self.kept {
            let y = Exact::of(row.high).plus(&Exact::of(row.low));
            gap = gap.plus(&y.times(&Exact::of(self.sheet.right_sides[row.row])));
            for at in self.sheet.part(row.row) {
                let coefficient = &mut coefficients[self.sheet.columns[at]];
                *coefficient = coefficient.plus(&y.times(&Exact::of(self.sheet.entries[at])));
            }
        }
        for (coefficient, &(low, high)) in coefficients.into_iter().zip(&self.ranges) {
            if coefficient.is_zero() {
                continue;
            }
            let edge = if coefficient.sign() > 0 { high } else { low };
            if edge.is_infinite() {
                return None;
            }
            gap = gap.plus(&coefficient.times(&Exact::of(edge)).minus());
        }
        Some(gap)
    }

    /// How an outward gap stands to the exact gap, in words for the counts; none if it claims too much.
    pub fn claims(&self, outward: f64) -> Option<&'static str> {
        let exact = self.exact();
        if outward == f64::NEG_INFINITY {
            return Some(if exact.is_some() { "outward -infinity, an exact gap there" } else { "no exact gap" });
        }
        match exact?.against(outward) {
            std::cmp::Ordering::Less => None,
            std::cmp::Ordering::Equal => Some("outward gap equal to the exact gap"),
            std::cmp::Ordering::Greater => Some("outward gap below the exact gap"),
        }
    }
}

/// Whether directed.rs rounds rightly, told by exact numbers: both sums and both products of two finite doubles.
pub fn rounds_rightly(a: f64, b: f64) -> bool {
    let (together, times) = (Exact::of(a).plus(&Exact::of(b)), Exact::of(a).times(&Exact::of(b)));
    [false, true].into_iter().all(|up| together.rounds_to(sum(a, b, up), up) && times.rounds_to(product(a, b, up), up))
}
