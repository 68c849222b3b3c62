//! A sheet of a given size, filled by a plan.
use super::aim::{aim, check, nudge, put_y};
use super::numbers::Kind::Ordinary;
use super::numbers::{Kind, Rng, UNIT, number, ordered, power};
use crate::sheet::{Sheet, Widened};

/// What a sheet's numbers are like.
#[derive(Clone, Copy)]
pub struct Plan {
    pub entry: Kind,
    pub right: Kind,
    pub bound: Kind,
    pub value: Kind,
    pub rho: Kind,
    pub tolerance: Kind,
    /// Percent of structural sides that are infinite.
    pub open: usize,
    /// Percent of sheets that are built to hold by some margin.
    pub aim: usize,
    /// Percent of sheets that are moved to where they just hold or just do not.
    pub nudge: usize,
    /// Percent of sheets that are checked.
    pub checked: usize,
    pub widened: usize,
}

pub const PLAN: Plan = Plan {
    entry: Ordinary,
    right: Ordinary,
    bound: Ordinary,
    value: Ordinary,
    rho: Ordinary,
    tolerance: Ordinary,
    open: 15,
    aim: 75,
    nudge: 30,
    checked: 50,
    widened: 10,
};

#[derive(Clone, Copy)]
pub struct Size {
    pub rows: usize,
    pub structurals: usize,
    /// Most structural entries in a row.
    pub dense: usize,
    /// Each row has that many.
    pub full: bool,
    /// Stored sheets leave out what need not be there.
    pub bare: bool,
}

/// Rows and columns; every slice of its length.
pub fn frame(rng: &mut Rng, size: Size) -> Sheet {
    let (rows, structurals) = (size.rows, size.structurals);
    let count = rows + structurals;
    let mut sheet = Sheet {
        made_rows: rows,
        made_structurals: structurals,
        rows,
        structurals,
        starts: vec![0],
        right_sides: vec![0.0; rows],
        scales: vec![0.0; rows],
        integer: vec![0; structurals],
        mins: vec![0.0; count],
        maxs: vec![0.0; count],
        low_tolerances: vec![0.0; count],
        high_tolerances: vec![0.0; count],
        basic: vec![0; count],
        places: vec![0; count],
        values: vec![0.0; count],
        rho_hi: vec![0.0; rows],
        rho_lo: vec![0.0; rows],
        second: vec![0.0; rows],
        ..Sheet::default()
    };
    let most = size.dense.min(structurals);
    for r in 0..rows {
        let take = if size.full || rng.percent(60) { most } else { rng.below(most + 1) };
        // each column with the chance that leaves just so many
        let mut left = take;
        for column in 0..structurals {
            if rng.below(structurals - column) < left {
                sheet.columns.push(column);
                left -= 1;
            }
        }
        sheet.columns.push(structurals + r);
        sheet.starts.push(sheet.columns.len());
    }
    sheet.entry_count = sheet.columns.len();
    sheet.entries = vec![1.0; sheet.entry_count];
    let extra = if size.bare { rng.below(2) } else { rng.below(4) };
    sheet.outputs = [count + extra; 5];
    sheet
}

pub fn basis(rng: &mut Rng, sheet: &mut Sheet, bare: bool) {
    let count = sheet.rows + sheet.structurals;
    let mut all: Vec<usize> = (0..count).collect();
    for at in 0..sheet.rows {
        let other = at + rng.below(count - at);
        all.swap(at, other);
    }
    // the leaving variable comes first, of the kind wanted where the basis has one
    let structural = rng.percent(50);
    if let Some(at) = all[..sheet.rows].iter().position(|&var| (var < sheet.structurals) == structural) {
        all.swap(0, at);
    } else if let Some(at) = all.iter().position(|&var| (var < sheet.structurals) == structural) {
        all.swap(0, at);
    }
    sheet.leaving_row = rng.below(sheet.rows);
    for (at, &var) in all[..sheet.rows].iter().enumerate() {
        sheet.basic[var] = if bare { 1 } else { rng.flag() };
        sheet.places[var] = (at + sheet.leaving_row) % sheet.rows;
    }
    // a place that is not in the basis says nothing
    if !bare && rng.percent(50) {
        for &var in &all[sheet.rows..] {
            sheet.places[var] = rng.pick(&[0, 1, sheet.rows, usize::MAX]);
        }
    }
}

pub fn fill(rng: &mut Rng, sheet: &mut Sheet, plan: Plan, bare: bool) {
    let count = sheet.rows + sheet.structurals;
    for at in 0..sheet.entry_count {
        if sheet.columns[at] < sheet.structurals {
            let x = number(rng, plan.entry);
            sheet.entries[at] = if x == 0.0 && rng.percent(80) { 1.0 } else { x };
        }
    }
    for r in 0..sheet.rows {
        sheet.right_sides[r] = number(rng, plan.right);
    }
    for var in 0..count {
        let (a, b) = (number(rng, plan.bound), number(rng, plan.bound));
        let (mut min, mut max) = if rng.percent(15) { (a, a) } else { ordered(a, b) };
        if bare && rng.percent(50) {
            (min, max) = ordered(0.0, max);
        }
        if var < sheet.structurals {
            if rng.percent(plan.open) {
                min = f64::NEG_INFINITY;
            }
            if rng.percent(plan.open) {
                max = f64::INFINITY;
            }
            sheet.integer[var] = if rng.percent(20) { rng.flag() } else { 0 };
        } else {
            (min, max) = match rng.below(10) {
                0..=2 => (0.0, f64::INFINITY),
                3..=5 => (f64::NEG_INFINITY, 0.0),
                6..=8 => (0.0, 0.0),
                _ => (min, max),
            };
        }
        (sheet.mins[var], sheet.maxs[var]) = (min, max);
        if !(bare && rng.percent(60)) {
            for list in [&mut sheet.low_tolerances, &mut sheet.high_tolerances] {
                list[var] = match rng.below(8) {
                    0 | 1 => 0.0,
                    2 => 1e-9,
                    3 => 1e-7,
                    4 => power(-30),
                    _ => number(rng, plan.tolerance).abs() * if rng.percent(50) { power(-20) } else { 1.0 },
                };
            }
        }
    }
    let feasibilities = [0.0, 1e-9, 1e-7, 1e-6, power(-20), number(rng, plan.tolerance).abs()];
    sheet.feasibility = if bare && rng.percent(50) { 0.0 } else { rng.pick(&feasibilities) };
    for r in 0..sheet.rows {
        let scale = match rng.below(6) {
            0 => 0.0,
            1 | 2 => power(rng.within(-6, 6)),
            3 => number(rng, plan.tolerance).abs(),
            _ => 1.0,
        };
        sheet.scales[r] = if bare && sheet.feasibility == 0.0 {
            0.0
        } else if (scale * sheet.feasibility).is_finite() {
            scale
        } else {
            1.0
        };
    }
    basis(rng, sheet, bare);
    for var in 0..count {
        let at = rng.pick(&[sheet.mins[var], sheet.maxs[var]]);
        let own = sheet.basic[var] != 0 || rng.percent(20) || !at.is_finite();
        sheet.values[var] = if own { number(rng, plan.value) } else { at };
    }
    sheet.leaving_up = if rng.percent(50) { rng.flag() } else { 0 };
    for r in 0..sheet.rows {
        let mut y = number(rng, plan.rho);
        let slack = sheet.structurals + r;
        if y == 0.0 && rng.percent(70) {
            y = 1.0;
        }
        // mostly toward a side that is there
        let side = if y > 0.0 { sheet.maxs[slack] } else { sheet.mins[slack] };
        if side.is_infinite() && rng.percent(85) {
            y = -y;
        }
        if rng.percent(8) {
            y = rng.pick(&[0.0, -0.0]);
        }
        put_y(sheet, r, y);
        if !(bare && rng.percent(60)) {
            let lo = y * UNIT * rng.within(-8, 8) as f64 / 8.0;
            sheet.rho_lo[r] = match rng.below(6) {
                0 | 1 => 0.0,
                2 => -0.0,
                // beyond half of the last place, so that normalizing changes it
                3 => y * rng.within(-8, 8) as f64 * power(-50),
                _ => lo * f64::from_bits(1023 << 52 | rng.next() >> 12) / 2.0,
            };
        }
    }
    if rng.percent(2) {
        for r in 0..sheet.rows {
            put_y(sheet, r, 0.0);
            sheet.rho_lo[r] = 0.0;
        }
    }
    widen(rng, sheet, plan.widened, bare);
    if rng.percent(plan.aim) {
        aim(rng, sheet);
    }
    check(rng, sheet, plan.checked);
    if rng.percent(plan.nudge) {
        nudge(rng, sheet);
    }
}

/// Widens so many percent of the sides.
pub fn widen(rng: &mut Rng, sheet: &mut Sheet, percent: usize, bare: bool) {
    sheet.widened.clear();
    if bare && percent <= 10 && rng.percent(80) {
        return;
    }
    let count = sheet.rows + sheet.structurals;
    let mut items: Vec<(usize, u8)> = (0..count).flat_map(|var| [(var, 0), (var, 1)]).collect();
    items.retain(|_| rng.percent(percent));
    for at in 0..items.len() {
        let other = at + rng.below(items.len() - at);
        items.swap(at, other);
    }
    for (var, up) in items {
        sheet.widened.push(Widened::of(var, if up == 0 { 0 } else { rng.flag() }));
    }
}
