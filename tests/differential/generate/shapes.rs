//! Changes to a sheet that bring it to where the judgement turns: rows that cancel, errors, rooms.
use super::aim::{aim, combined, nudge_row, put_y, put_y_low};
use super::numbers::Kind::{Ordinary, Whole};
use super::numbers::{Rng, UNIT, number, ordered, power, ulps};
use crate::rust::answer;
use crate::sheet::{Sheet, Widened};

/// Rows that are multiples of the first but for a few last places, and multipliers that cancel them.
pub fn dependent(rng: &mut Rng, sheet: &mut Sheet, exact: bool) {
    let first = sheet.part(0);
    let like: Vec<usize> = (1..sheet.rows)
        .filter(|&r| {
            let part = sheet.part(r);
            part.len() == first.len()
                && sheet.columns[part][..first.len() - 1] == sheet.columns[first.clone()][..first.len() - 1]
        })
        .collect();
    let Some(&other) = like.first() else { return };
    let factor = if exact { power(rng.within(-3, 3)) } else { number(rng, Ordinary) };
    let start = sheet.starts[other];
    for at in 0..first.len() - 1 {
        let entry = sheet.entries[at] * factor;
        sheet.entries[start + at] = if exact || rng.percent(50) { entry } else { ulps(entry, rng.within(-3, 3)) };
    }
    let y = number(rng, Ordinary);
    let opposite = -y / factor;
    put_y(sheet, 0, y);
    put_y(sheet, other, opposite);
    put_y_low(sheet, 0, 0.0);
    let rest = factor.mul_add(opposite, y);
    put_y_low(sheet, other, if rng.percent(70) { -rest / factor } else { 0.0 });
    // both slacks held, so that both rows are kept
    for r in [0, other] {
        let slack = sheet.structurals + r;
        (sheet.mins[slack], sheet.maxs[slack]) = rng.pick(&[(0.0, 0.0), (-1.0, 1.0), (0.0, 2.0)]);
    }
}

/// The first structural variable that two rows contain, with those rows and where they have its entry.
pub fn shared(sheet: &Sheet) -> Option<(usize, Vec<(usize, usize)>)> {
    (0..sheet.structurals).find_map(|var| {
        let rows: Vec<(usize, usize)> = (0..sheet.rows)
            .flat_map(|r| sheet.part(r).map(move |at| (r, at)))
            .filter(|&(_, at)| sheet.columns[at] == var)
            .collect();
        (rows.len() >= 2).then(|| (var, rows))
    })
}

/// A structural variable with an infinite side whose coefficient is about what counts as zero: the low part of one of
/// two opposite multipliers.
pub fn brink(rng: &mut Rng, sheet: &mut Sheet) {
    let Some((var, rows)) = shared(sheet) else { return };
    // others contain it not at all
    for &(_, at) in &rows[2..] {
        sheet.entries[at] = 0.0;
    }
    let scale = power(rng.within(-3, 3));
    for (&(r, at), y) in rows.iter().zip([scale, -scale]) {
        sheet.entries[at] = 1.0;
        put_y(sheet, r, y);
        put_y_low(sheet, r, 0.0);
        let slack = sheet.structurals + r;
        (sheet.mins[slack], sheet.maxs[slack]) = (0.0, 0.0);
    }
    let before = answer(sheet);
    let error = before.errors_of_zero[var];
    let brink = ulps(error, rng.within(-2, 2)) * rng.pick(&[1.0, 1.0, 1.0, 0.5, 2.0]);
    put_y_low(sheet, rows[1].0, brink * rng.sign());
    (sheet.mins[var], sheet.maxs[var]) = (f64::NEG_INFINITY, f64::INFINITY);
    // the rest of the walk goes on, mostly
    for other in 0..sheet.structurals {
        if other != var && rng.percent(85) {
            (sheet.mins[other], sheet.maxs[other]) = ordered(number(rng, Ordinary), number(rng, Ordinary));
        }
    }
}

/// A leaving slack whose room is about its cut, and a gap that is about the room of the others: every bound that counts
/// is 0, so that the gap is the right side times a power of two but for the multiplier's low part.
pub fn pinch(rng: &mut Rng, sheet: &mut Sheet) {
    let leaving = answer(sheet).leaving;
    let Some(r) = leaving.checked_sub(sheet.structurals) else { return };
    let y = power(rng.within(-3, 3)) * rng.sign();
    put_y(sheet, r, y);
    put_y_low(sheet, r, y * UNIT * rng.pick(&[0.25, 0.5, 0.75, -0.25]));
    let p = combined(sheet).0;
    for var in 0..p.len() {
        (sheet.mins[var], sheet.maxs[var]) = if p[var] > 0.0 { (-1.0, 0.0) } else { (0.0, 1.0) };
    }
    sheet.right_sides.fill(0.0);
    sheet.right_sides[r] = y.signum();
    for _ in 0..2 {
        nudge_row(rng, sheet, r);
        let room = answer(sheet).cut / y.abs() * rng.pick(&[1.0, 1.0, 1.125, 1.25, 2.0]);
        let side = if y > 0.0 { &mut sheet.high_tolerances } else { &mut sheet.low_tolerances };
        side[leaving] = ulps(room, rng.within(0, 2)).abs();
    }
    nudge_row(rng, sheet, r);
}

/// Multipliers about their error.
pub fn zeroed(rng: &mut Rng, sheet: &mut Sheet) {
    sheet.checked = rng.flag();
    let largest = rng.below(sheet.rows);
    let kind = rng.pick(&[Ordinary, Whole]);
    let top = number(rng, kind).abs().max(1.0);
    put_y(sheet, largest, top);
    sheet.rho_lo[largest] = 0.0;
    let limit = UNIT * top;
    for r in 0..sheet.rows {
        let second = limit * rng.pick(&[1.0, 0.5, 0.3, power(-10), power(-40), 0.0]);
        sheet.second[r] = second * rng.sign();
        if r != largest && rng.percent(60) {
            let y = match rng.below(8) {
                0 => 0.0,
                1 => -0.0,
                2 | 3 => second,
                4 => second.next_up(),
                5 => second.next_down().max(0.0),
                6 => second / 2.0,
                _ => second * 2.0,
            };
            put_y(sheet, r, y * rng.sign());
            sheet.rho_lo[r] = if rng.percent(60) { 0.0 } else { y * UNIT * rng.pick(&[0.5, -0.5, 0.25]) };
        }
    }
}

/// No side has any room: no tolerances, and every side of a slack widened. So the judgement holds from about its own
/// rounding on.
pub fn without_room(sheet: &mut Sheet) {
    sheet.low_tolerances.fill(0.0);
    sheet.high_tolerances.fill(0.0);
    sheet.feasibility = 0.0;
    let slacks = sheet.structurals..sheet.structurals + sheet.rows;
    sheet.widened = slacks.flat_map(|slack| [0, 1].map(|up| Widened::of(slack, up))).collect();
}

/// Low parts of all digits for every multiplier.
pub fn low_parts(rng: &mut Rng, sheet: &mut Sheet) {
    for r in 0..sheet.rows {
        let part = f64::from_bits(1022 << 52 | rng.next() >> 12) * rng.sign();
        put_y_low(sheet, r, sheet.y(r) * UNIT * part);
    }
}

/// A structural variable whose terms cancel, with no product that is a double. Bounds that are rounded outward leave it a
/// coefficient, which an infinite side or a huge one makes much of.
pub fn cancelled(rng: &mut Rng, sheet: &mut Sheet) {
    let Some((var, rows)) = shared(sheet) else { return };
    for &(_, at) in &rows[2..] {
        sheet.entries[at] = 0.0;
    }
    // with three bits to spare, so that the multiples are doubles
    let short = |x: f64| f64::from_bits(x.to_bits() & !7);
    let (y, entry) = (short(number(rng, Ordinary)), short(number(rng, Ordinary)));
    let factor = rng.pick(&[3.0, 5.0, 7.0]);
    for (&(r, at), (y, entry)) in rows.iter().zip([(factor * y, entry), (-y, factor * entry)]) {
        sheet.entries[at] = entry;
        put_y(sheet, r, y);
        put_y_low(sheet, r, 0.0);
        let slack = sheet.structurals + r;
        (sheet.mins[slack], sheet.maxs[slack]) = (0.0, 0.0);
    }
    let huge = power(rng.within(45, 60));
    let infinity = f64::INFINITY;
    (sheet.mins[var], sheet.maxs[var]) =
        rng.pick(&[(-infinity, infinity), (0.0, infinity), (-infinity, 1.0), (-huge, huge), (0.0, huge)]);
    aim(rng, sheet);
}
