//! Sheets on which the Rust's product of a coefficient and a width is not the promised one (document 02, request 5),
//! and whose gap is about the room, so that `holds` of the one turns to that of the other.
//!
//! That is where the exact product lies below 2^-969, where the width is so large that its split overflows, and where
//! the product comes to the largest double. A gap above a room so large makes the magnitude of the sums overflow, so
//! that of the products about MAX only those below 2^1023, with a width whose split overflows, can turn `holds`.
use super::aim::put_y;
use super::numbers::{Rng, power, ulps};
use super::shapes::{low_parts, without_room};
use crate::rust::{answer, lack, lacking};
use crate::sheet::Sheet;

/// What the Rust's product is.
#[derive(Clone, Copy, PartialEq)]
enum Kind {
    /// 0, or too small by about the smallest double.
    Vanishing,
    /// Too small, below 2^-969.
    TooSmall,
    /// Too large, where it is not far above the smallest double.
    TooLarge,
    /// Too small by a width whose split overflows; about MAX too.
    Split,
    SplitAboutMax,
    /// Too large or too small next to the largest double.
    Largest,
}
use Kind::*;

/// A double from 2^e on and below twice that.
fn scaled(rng: &mut Rng, e: i64) -> f64 {
    let fraction = match rng.below(8) {
        0 => 0,
        1 => (1 << 52) - 1,
        2 => 1,
        // few digits, so that a product may be a double
        3 => rng.next() >> 42 << 30,
        _ => rng.next() >> 12,
    };
    f64::from_bits(1023 << 52 | fraction) * power(e)
}

/// A coefficient's size and a width.
fn drawn(rng: &mut Rng, kind: Kind) -> (f64, f64) {
    let (whole, part) = match kind {
        Vanishing => (rng.within(-1150, -1075), rng.within(-700, -300)),
        TooSmall => (rng.within(-1074, -969), rng.within(-700, -300)),
        TooLarge => (rng.within(-1051, -1021), rng.within(-700, -300)),
        Split => (rng.within(-60, 60), 0),
        SplitAboutMax => (rng.within(1000, 1020), 0),
        Largest => (1023, rng.within(470, 550)),
    };
    match kind {
        Vanishing | TooSmall | TooLarge => (scaled(rng, part), scaled(rng, whole - part)),
        Split | SplitAboutMax => {
            let (least, part) = (f64::from_bits(0x7E3F_FFFF_FC00_0000), rng.within(997, 1022));
            let width = if rng.percent(20) { ulps(least, rng.within(-2, 3)) } else { scaled(rng, part) };
            (scaled(rng, whole - part), width)
        }
        Largest => {
            let size = if rng.percent(30) { power(part) } else { scaled(rng, part) };
            (size, ulps(f64::MAX / size, rng.within(-2, 2)))
        }
    }
}

/// The same, drawn again until the Rust's product is what the kind says, or often enough.
fn factors(rng: &mut Rng, kind: Kind) -> (f64, f64) {
    let mut found = drawn(rng, kind);
    for _ in 0..100 {
        let lack = lack(found.0, found.1);
        let so = match kind {
            TooLarge => lack < 0.0,
            Largest => lack != 0.0 && !lack.is_nan(),
            _ => lack > 0.0,
        };
        if so {
            break;
        }
        found = drawn(rng, kind);
    }
    found
}

/// The side toward which a variable's coefficient needs it gets a bound and a tolerance.
fn widen_side(rng: &mut Rng, sheet: &mut Sheet, var: usize, up: bool, width: f64) {
    // so much smaller that its own product does not overflow
    let bound = if rng.percent(8) { width * power(rng.within(-60, -30)) * rng.sign() } else { 0.0 };
    let far = rng.pick(&[1.0 + 2.0 * bound.abs(), f64::INFINITY]);
    (sheet.mins[var], sheet.maxs[var]) = if up { (-far, bound) } else { (bound, far) };
    let (near, other) = if up {
        (&mut sheet.high_tolerances, &mut sheet.low_tolerances)
    } else {
        (&mut sheet.low_tolerances, &mut sheet.high_tolerances)
    };
    (near[var], other[var]) = (width, rng.pick(&[0.0, width]));
    sheet.integer[var] = if rng.percent(8) { 1 } else { 0 };
}

/// A slack of coefficient y gets the width: as its tolerance, or as its row's where it is not leaving.
fn widen_slack(sheet: &mut Sheet, r: usize, width: f64) {
    let slack = sheet.structurals + r;
    (sheet.low_tolerances[slack], sheet.high_tolerances[slack]) = (width, width);
    (sheet.feasibility, sheet.scales[r]) = (1.0, width);
    sheet.widened.retain(|item| item.variable != slack);
}

/// Moves the first right side to where the gap is the larger of the two rooms, or about there.
fn aim(rng: &mut Rng, sheet: &mut Sheet, kind: Kind) {
    let y = sheet.y(0);
    let mut spare = false;
    for _ in 0..3 {
        let now = answer(sheet);
        let leaving = (now.high[now.leaving], sheet.low_tolerances[now.leaving], sheet.high_tolerances[now.leaving]);
        spare = matches!(kind, Split | SplitAboutMax) && leaving.0 != 0.0 && leaving.1.max(leaving.2) != 0.0;
        let room = now.allowance + lacking(sheet).max(0.0);
        let right = sheet.right_sides[0] + (room - now.gap) / y;
        if !right.is_finite() {
            return;
        }
        sheet.right_sides[0] = right;
    }
    // the leaving variable's room is taken off the gap, and what the allowance is rounded up by is no part of it
    let steps = if spare { rng.pick(&[1, 1, 1, 1, 2, 0, 3, -1]) } else { rng.pick(&[0, 0, 0, 0, 0, 1, 2, -1]) };
    let right = sheet.right_sides[0];
    sheet.right_sides[0] = ulps(right, if right > 0.0 { -steps } else { steps });
}

/// A row's multiplier and the entries of variables that no row before has taken.
fn row(rng: &mut Rng, sheet: &mut Sheet, r: usize, kind: Kind, taken: &mut [bool]) {
    let (size, width) = factors(rng, kind);
    // the slack's own product is one of the kind where the multiplier is as small as a coefficient; where the gap is
    // about MAX the right side is to be far from it
    let own = rng.percent(30) && size > power(-900) && kind != SplitAboutMax;
    let part = if kind == SplitAboutMax { rng.within(300, 600) } else { rng.within(-3, 3) };
    let y = if own {
        size
    } else if rng.percent(75) {
        power(part)
    } else {
        scaled(rng, part)
    };
    let y = y * rng.sign();
    put_y(sheet, r, y);
    if own && rng.percent(70) {
        widen_slack(sheet, r, width);
    }
    for at in sheet.part(r) {
        let var = sheet.columns[at];
        if var < sheet.structurals {
            sheet.entries[at] = 0.0;
            if !std::mem::replace(&mut taken[var], true) {
                let (size, width) = factors(rng, kind);
                sheet.entries[at] = size / y * rng.sign();
                let width = if rng.percent(20) { 0.0 } else { width };
                widen_side(rng, sheet, var, sheet.entries[at] * y > 0.0, width);
            }
        }
    }
}

/// Every structural variable that a kept row contains has a coefficient and a width of one kind, and the bound there is
/// mostly 0, so that the first right side makes the gap.
pub fn reaches(rng: &mut Rng, sheet: &mut Sheet) {
    let kinds = [Vanishing, TooSmall, TooLarge, Split];
    let kind = if rng.percent(80) { rng.pick(&kinds) } else { rng.pick(&[SplitAboutMax, Largest]) };
    without_room(sheet);
    for list in [&mut sheet.right_sides, &mut sheet.scales, &mut sheet.second, &mut sheet.rho_lo, &mut sheet.values] {
        list.fill(0.0);
    }
    let mut taken = vec![false; sheet.structurals];
    for r in 0..sheet.rows {
        let slack = sheet.structurals + r;
        (sheet.mins[slack], sheet.maxs[slack]) = (0.0, 0.0);
        if r > 0 && rng.percent(40) {
            put_y(sheet, r, 0.0);
        } else {
            row(rng, sheet, r, kind, &mut taken);
        }
    }
    if rng.percent(10) {
        low_parts(rng, sheet);
    }
    aim(rng, sheet, kind);
}
