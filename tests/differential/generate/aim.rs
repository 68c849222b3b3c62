//! Right sides, bounds and second corrections that make a sheet hold, just hold or just not.
use super::numbers::Kind::Wide;
use super::numbers::{Rng, UNIT, number, power, ulps};
use crate::rust::answer;
use crate::sheet::Sheet;

pub fn put_y(sheet: &mut Sheet, r: usize, y: f64) {
    sheet.rho_hi[r] = if sheet.leaving_up != 0 { -y } else { y };
}

pub fn put_y_low(sheet: &mut Sheet, r: usize, lo: f64) {
    sheet.rho_lo[r] = if sheet.leaving_up != 0 { -lo } else { lo };
}

/// The combined row in plain doubles.
pub fn combined(sheet: &Sheet) -> (Vec<f64>, Vec<f64>) {
    let count = sheet.rows + sheet.structurals;
    let (mut p, mut magnitudes) = (vec![0.0; count], vec![0.0; count]);
    for r in 0..sheet.rows {
        for at in sheet.part(r) {
            p[sheet.columns[at]] += sheet.y(r) * sheet.entries[at];
            magnitudes[sheet.columns[at]] += (sheet.y(r) * sheet.entries[at]).abs();
        }
    }
    (p, magnitudes)
}

/// Closes the sides that the combined row needs, mostly, and chooses a right side so that the combined row is out of
/// reach by some margin, just out of reach, or within it.
pub fn aim(rng: &mut Rng, sheet: &mut Sheet) {
    let (p, magnitudes) = combined(sheet);
    let mut most = 0.0;
    let closing = rng.pick(&[100, 100, 100, 92]);
    for var in 0..p.len() {
        // what cancelled is left to chance
        if p[var].abs() <= 1e-13 * magnitudes[var] {
            continue;
        }
        let up = p[var] > 0.0;
        let side = if up { sheet.maxs[var] } else { sheet.mins[var] };
        if side.is_infinite() && rng.percent(closing) {
            let other = if up { sheet.mins[var] } else { sheet.maxs[var] };
            let closed = if other.is_finite() { other } else { 0.0 };
            if up {
                sheet.maxs[var] = closed;
            } else {
                sheet.mins[var] = closed;
            }
        }
        let side = if up { sheet.maxs[var] } else { sheet.mins[var] };
        if side.is_finite() {
            most += p[var] * side;
        }
    }
    let mut kept: Vec<usize> = (0..sheet.rows).filter(|&r| keeps(sheet, r)).collect();
    if kept.is_empty() {
        return;
    }
    let row = kept.swap_remove(rng.below(kept.len()));
    let others: f64 = kept.iter().map(|&r| sheet.y(r) * sheet.right_sides[r]).sum();
    let scale = most.abs().max(others.abs()).max(if rng.percent(50) { sheet.y(row).abs() } else { 0.0 });
    let margin = match rng.below(10) {
        0..=4 => scale * (1.0 + rng.below(4) as f64),
        5 => scale * 1e-6,
        6 => scale * 1e-14,
        7 => 0.0,
        _ => -scale,
    };
    let right = (most + margin - others) / sheet.y(row);
    if right.is_finite() {
        sheet.right_sides[row] = right;
    }
}

/// Whether the certificate keeps a row, where its multiplier is not within its error.
pub fn keeps(sheet: &Sheet, r: usize) -> bool {
    let (y, slack) = (sheet.y(r), sheet.structurals + r);
    y.is_finite() && y != 0.0 && if y > 0.0 { sheet.maxs[slack] } else { sheet.mins[slack] }.is_finite()
}

pub fn norm(list: impl Iterator<Item = f64>) -> f64 {
    list.fold(0.0, |norm: f64, x| norm.max(x.abs()))
}

/// Second corrections: mostly within the converged refinement, some at its very limit, some beyond.
pub fn check(rng: &mut Rng, sheet: &mut Sheet, percent: usize) {
    sheet.checked = if rng.percent(percent) { rng.flag() } else { 0 };
    if sheet.checked == 0 && rng.percent(70) {
        return;
    }
    let largest = norm((0..sheet.rows).map(|r| sheet.y(r)));
    let limit = UNIT * largest;
    let how = rng.below(10);
    for r in 0..sheet.rows {
        let part = rng.pick(&[0.0, 1.0, 0.5, 0.75, power(-7), power(-30)]);
        let second = limit * part * rng.sign();
        sheet.second[r] = match how {
            0 => second * 4.0,
            1 if rng.percent(30) => number(rng, Wide),
            // entry by entry, as a refinement leaves them
            2..=5 => sheet.y(r) * UNIT * part * rng.sign(),
            _ => second,
        };
    }
    let at = rng.below(sheet.rows);
    match how {
        6 => sheet.second[at] = limit,
        7 => sheet.second[at] = limit.next_up(),
        _ => {}
    }
}

/// Moves a right side to where the gap is about the allowance.
pub fn nudge(rng: &mut Rng, sheet: &mut Sheet) {
    let kept: Vec<usize> = (0..sheet.rows).filter(|&r| keeps(sheet, r)).collect();
    if kept.is_empty() || sheet.first_no() != 0 {
        return;
    }
    let row = rng.pick(&kept);
    nudge_row(rng, sheet, row);
}

pub fn nudge_row(rng: &mut Rng, sheet: &mut Sheet, row: usize) {
    for _ in 0..rng.within(1, 2) {
        let now = answer(sheet);
        let right = sheet.right_sides[row] + (now.allowance - now.gap) / sheet.y(row);
        if !right.is_finite() {
            return;
        }
        sheet.right_sides[row] = right;
    }
    sheet.right_sides[row] = ulps(sheet.right_sides[row], rng.within(-2, 2));
}
