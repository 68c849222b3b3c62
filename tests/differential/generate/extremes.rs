//! Changes to a sheet that bring it to where doubles end: overflow, and multipliers of any bits.
use super::aim::{put_y, put_y_low};
use super::numbers::Kind::{Ordinary, Tiny};
use super::numbers::{Rng, number, ordered, power};
use crate::sheet::Sheet;

/// Two rows whose right sides come to the largest double, where low parts decide whether a sum overflows.
pub fn summit(rng: &mut Rng, sheet: &mut Sheet) {
    if sheet.rows < 2 {
        return;
    }
    let bound = rng.pick(&[0.0, -power(448), power(448), power(482)]);
    for r in 0..sheet.rows {
        put_y(sheet, r, if r < 2 { power(512) } else { 0.0 });
        sheet.rho_lo[r] = 0.0;
        let slack = sheet.structurals + r;
        (sheet.mins[slack], sheet.maxs[slack]) = (bound, bound);
    }
    let low = power(rng.within(458, 459));
    put_y_low(sheet, 0, low);
    sheet.right_sides[0] = power(512) - power(490);
    sheet.right_sides[1] = power(490) - power(459);
    for var in 0..sheet.structurals {
        (sheet.mins[var], sheet.maxs[var]) = (0.0, 0.0);
    }
}

/// Makes the rows' terms so large that their magnitudes add up to infinity.
pub fn swell(rng: &mut Rng, sheet: &mut Sheet) {
    let up = power(rng.within(505, 512));
    for at in 0..sheet.entry_count {
        if sheet.columns[at] < sheet.structurals {
            sheet.entries[at] *= up;
        }
    }
    for r in 0..sheet.rows {
        sheet.rho_hi[r] *= power(508);
        sheet.rho_lo[r] *= power(508);
    }
}

/// An error that overflows at an infinite bound: a dropped row of large multiplier and entry.
pub fn overflowing_error(rng: &mut Rng, sheet: &mut Sheet) {
    if sheet.rows < 3 || sheet.structurals == 0 {
        return;
    }
    // errors are of basic variables
    if sheet.basic[0] == 0 && rng.percent(80) {
        let other = (0..sheet.basic.len()).find(|&var| sheet.basic[var] != 0).unwrap();
        sheet.basic.swap(0, other);
        sheet.places.swap(0, other);
    }
    let (mut other, mut dropped) = (None, None);
    for r in 1..sheet.rows {
        for at in sheet.part(r) {
            if sheet.columns[at] == 0 {
                if dropped.is_none() {
                    dropped = Some((r, at));
                } else if other.is_none() {
                    other = Some((r, at));
                }
            }
        }
    }
    let (Some((dropped, place)), Some((other, at))) = (dropped, other) else { return };
    sheet.checked = 1;
    sheet.second.fill(0.0);
    put_y(sheet, 0, power(1000));
    sheet.rho_lo[0] = 0.0;
    put_y(sheet, dropped, power(940));
    sheet.second[dropped] = power(945);
    sheet.entries[place] = power(rng.within(70, 100));
    put_y(sheet, other, 1.0);
    sheet.entries[at] = 1.0;
    (sheet.mins[0], sheet.maxs[0]) = (f64::NEG_INFINITY, f64::INFINITY);
    for r in [0, other] {
        let slack = sheet.structurals + r;
        (sheet.mins[slack], sheet.maxs[slack]) = (0.0, 0.0);
    }
}

/// Multipliers and second corrections of any bits.
pub fn scramble(rng: &mut Rng, sheet: &mut Sheet) {
    let any = |rng: &mut Rng| match rng.below(12) {
        0 => f64::NAN,
        1 => f64::INFINITY,
        2 => f64::NEG_INFINITY,
        3 => f64::from_bits(0xFFF0_0000_0000_0001),
        4 => 0.0,
        5 => -0.0,
        6 => f64::MAX * rng.sign(),
        7 => number(rng, Tiny),
        8 | 9 => number(rng, Ordinary),
        _ => f64::from_bits(rng.next()),
    };
    for r in 0..sheet.rows {
        match rng.below(5) {
            0 => sheet.rho_hi[r] = any(rng),
            1 => sheet.rho_lo[r] = any(rng),
            2 => (sheet.rho_hi[r], sheet.rho_lo[r]) = (any(rng), any(rng)),
            3 => sheet.second[r] = any(rng),
            _ => {}
        }
    }
    // NaNs that are kept and dropped by the low side alone
    let r = rng.below(sheet.rows);
    if rng.percent(20) {
        sheet.rho_hi[r] = f64::NAN;
        sheet.mins[sheet.structurals + r] = rng.pick(&[f64::NEG_INFINITY, 0.0]);
        sheet.maxs[sheet.structurals + r] = rng.pick(&[f64::INFINITY, 0.0]);
    }
}

/// A multiplier whose parts add up to a finite number while what they leave over does not: the low part is the largest
/// double, and the sum a tie that rounds away from the high part.
pub fn torn(rng: &mut Rng, sheet: &mut Sheet) {
    let r = rng.below(sheet.rows);
    let odd = 1 + 2 * rng.below(1 << 50);
    let sign = rng.sign();
    sheet.rho_hi[r] = -sign * (2 * odd + 1) as f64 * power(970);
    sheet.rho_lo[r] = sign * f64::MAX;
    let slack = sheet.structurals + r;
    (sheet.mins[slack], sheet.maxs[slack]) = (0.0, 0.0);
}

/// Numbers about the largest double: outward a product or a running sum is infinite where the exact gap need not be.
pub fn beyond(rng: &mut Rng, sheet: &mut Sheet) {
    let huge = |rng: &mut Rng| rng.sign() * rng.pick(&[f64::MAX, f64::MAX, f64::MAX / 2.0, power(1022), 1.0]);
    let (entries, bounds, right_sides) = (rng.percent(40), rng.percent(40), rng.percent(60));
    for at in 0..sheet.entry_count {
        if entries && sheet.columns[at] < sheet.structurals {
            sheet.entries[at] = huge(rng);
        }
    }
    for var in 0..sheet.structurals {
        if bounds {
            (sheet.mins[var], sheet.maxs[var]) = ordered(huge(rng), huge(rng));
        }
    }
    for r in 0..sheet.rows {
        put_y(sheet, r, rng.sign() * power(rng.within(-1, 1)));
        put_y_low(sheet, r, 0.0);
        let slack = sheet.structurals + r;
        (sheet.mins[slack], sheet.maxs[slack]) = (0.0, 0.0);
        if right_sides {
            sheet.right_sides[r] = huge(rng);
        }
    }
}
