//! Sheets of each class, from a seed.
mod aim;
mod damage;
mod extremes;
mod frame;
mod numbers;
mod reaches;
mod shapes;

#[allow(unused_imports)] // for tests/texts
pub use damage::damage;
pub use numbers::Rng;

use crate::rust::{Walk, answer};
use crate::sheet::Sheet;
use aim::{aim, check, nudge};
use damage::damaged;
use extremes::{beyond, overflowing_error, scramble, summit, swell, torn};
use frame::{PLAN, Plan, Size, fill, frame};
use numbers::Kind::{Bits, Grains, Huge, Ordinary, Root, Split, Tiny, Whole, Wide, Zero};
use numbers::UNIT;
use reaches::reaches;
use shapes::{brink, cancelled, dependent, low_parts, pinch, without_room, zeroed};

pub const CLASSES: [&str; 13] = [
    "small whole numbers",
    "ordinary doubles",
    "near-dependent rows",
    "multipliers zeroed",
    "infinite bounds",
    "subnormal and huge",
    "split overflowing",
    "random bits",
    "limits of size",
    "refused",
    "widened sides",
    "lost in rounding",
    "reaches lost",
];

fn small(rng: &mut Rng, bare: bool) -> Size {
    if bare {
        let (rows, structurals) = rng.pick(&[(1, 0), (1, 1), (1, 1), (1, 2), (2, 1), (2, 1), (2, 2), (2, 2), (3, 2)]);
        return Size { rows, structurals, dense: 2, full: false, bare };
    }
    if rng.percent(4) {
        let (rows, structurals, dense) = (1 + rng.below(24), rng.below(40), 1 + rng.below(40));
        return Size { rows, structurals, dense, full: false, bare };
    }
    // long rows, where the evaluation margin is half of the row's tolerance
    if rng.percent(3) {
        let (rows, structurals) = (1 + rng.below(3), 40 + rng.below(60));
        return Size { rows, structurals, dense: structurals, full: rng.percent(70), bare };
    }
    Size { rows: 1 + rng.below(5), structurals: rng.below(6), dense: 1 + rng.below(5), full: false, bare }
}

/// Sizes at the limits: rows, structurals, most structural entries in a row.
const LIMITS: [(usize, usize, usize); 7] =
    [(128, 256, 31), (128, 256, 31), (128, 31, 31), (1, 256, 256), (1, 0, 0), (128, 0, 0), (16, 256, 255)];

/// A sheet of a class. Class 9's are damaged; `bare` is for the stored list, where a sheet has few numbers, and a
/// damaged one only damage that the list can say.
pub fn sheet(rng: &mut Rng, class: usize, bare: bool) -> Sheet {
    let mut size = small(rng, bare);
    let mut plan = PLAN;
    match class {
        0 => {
            let tolerance = rng.pick(&[Whole, Zero]);
            plan = Plan { entry: Whole, right: Whole, bound: Whole, value: Whole, rho: Whole, tolerance, ..plan };
        }
        2 => {
            size.rows = size.rows.max(2);
            size.structurals = size.structurals.max(1);
            (size.dense, size.full) = (size.structurals, rng.percent(80));
            plan = Plan { open: 40, aim: 0, nudge: 0, ..plan };
        }
        3 => {
            size.rows = size.rows.max(2);
            plan = Plan { open: 25, nudge: 0, ..plan };
        }
        4 => {
            size.rows = size.rows.max(if bare { 2 } else { 2 + rng.below(2) });
            size.structurals = size.structurals.max(1);
            (size.dense, size.full) = (size.structurals, rng.percent(80));
            plan = Plan { open: 30, aim: 30, ..plan };
        }
        5 => {
            let kinds = [Wide, Huge, Tiny, Ordinary, Ordinary, Whole, Root, Grains];
            plan = match rng.below(7) {
                // dependent rows to be swollen
                6 => Plan { aim: 0, ..plan },
                // a few grains, so that gap and allowance tie
                0 => Plan { entry: Whole, right: Grains, bound: Grains, value: Grains, rho: Whole, ..plan },
                1 => {
                    let bound = rng.pick(&[Grains, Zero]);
                    Plan { entry: Whole, right: Grains, bound, value: Grains, rho: Whole, tolerance: Grains, ..plan }
                }
                2 => Plan { value: rng.pick(&[Huge, Wide]), entry: rng.pick(&[Ordinary, Huge]), ..plan },
                3 => Plan { entry: Root, rho: Root, ..plan },
                4 => Plan { right: Huge, rho: rng.pick(&[Ordinary, Huge]), bound: rng.pick(&kinds), ..plan },
                _ => Plan {
                    entry: rng.pick(&kinds),
                    right: rng.pick(&kinds),
                    bound: rng.pick(&kinds),
                    value: rng.pick(&kinds),
                    rho: rng.pick(&kinds),
                    tolerance: rng.pick(&kinds),
                    ..plan
                },
            };
            plan.nudge = 50;
        }
        6 => {
            let small = [Tiny, Ordinary, Root];
            plan = match rng.below(5) {
                0 => Plan { entry: Split, rho: rng.pick(&small), ..plan },
                1 => Plan { right: Split, rho: rng.pick(&small), ..plan },
                2 => Plan { bound: Split, rho: rng.pick(&small), ..plan },
                3 => Plan { tolerance: Split, bound: rng.pick(&[Ordinary, Split]), ..plan },
                _ => Plan { rho: Split, entry: rng.pick(&small), right: rng.pick(&small), ..plan },
            };
        }
        7 => {
            let kinds = [Ordinary, Whole, Bits];
            let (entry, right, bound) = (rng.pick(&kinds), rng.pick(&kinds), rng.pick(&kinds));
            plan = Plan { entry, right, bound, value: rng.pick(&kinds), tolerance: rng.pick(&kinds), ..plan };
        }
        8 if bare => {
            let (rows, structurals, dense) = if rng.percent(60) { (5, 8, 5) } else { (1, 46, 46) };
            size = Size { rows, structurals, dense, full: rows == 1, bare };
            plan.open = 0;
        }
        8 => {
            let (rows, structurals, dense) = rng.pick(&LIMITS);
            size = Size { rows, structurals, dense, full: rng.percent(60), bare };
            plan = Plan { entry: rng.pick(&[Ordinary, Whole]), rho: rng.pick(&[Ordinary, Whole]), ..plan };
        }
        9 => return damaged(rng, bare),
        10 => {
            let tolerance = rng.pick(&[Ordinary, Whole]);
            let kind = rng.pick(&[Ordinary, Whole, Zero]);
            let widened = rng.pick(&[20, 50, 90, 100]);
            plan = Plan { tolerance, bound: kind, widened, nudge: 50, open: 5, aim: 90, ..plan };
        }
        11 => {
            size.rows = size.rows.max(rng.pick(&[1, 2, 2, 4]));
            size.structurals = size.structurals.max(1);
            (size.dense, size.full) = (size.structurals, rng.percent(80));
            plan = Plan { open: 0, aim: 0, nudge: 0, checked: 20, ..plan };
        }
        12 => {
            let few = [(1, 1), (1, 2), (2, 1)];
            let (rows, structurals) = if bare { rng.pick(&few) } else { (rng.below(3) + 1, rng.below(3) + 1) };
            size = Size { rows, structurals, dense: structurals, full: rng.percent(80), bare };
            plan = Plan { open: 0, aim: 0, nudge: 0, checked: 20, ..plan };
        }
        _ => {}
    }
    // the cut of a long row reaches its margin where the row itself is small
    if size.structurals > 40 && size.rows < 4 {
        plan.value = rng.pick(&[Zero, plan.value]);
    }
    let mut sheet = frame(rng, size);
    sheet.class = class;
    fill(rng, &mut sheet, plan, bare);
    match class {
        2 => {
            let exact = rng.percent(30);
            dependent(rng, &mut sheet, exact);
            aim(rng, &mut sheet);
            let checked = sheet.checked;
            check(rng, &mut sheet, if checked != 0 { 100 } else { 0 });
            if rng.percent(20) {
                nudge(rng, &mut sheet);
            }
        }
        3 => {
            zeroed(rng, &mut sheet);
            if rng.percent(60) {
                aim(rng, &mut sheet);
            }
            if rng.percent(30) {
                nudge(rng, &mut sheet);
            }
        }
        5 if plan.aim == 0 => {
            dependent(rng, &mut sheet, false);
            swell(rng, &mut sheet);
        }
        5 if rng.percent(6) => summit(rng, &mut sheet),
        10 if rng.percent(30) => pinch(rng, &mut sheet),
        4 => match rng.below(8) {
            0 => overflowing_error(rng, &mut sheet),
            1 => {}
            _ => {
                brink(rng, &mut sheet);
                if rng.percent(70) {
                    aim(rng, &mut sheet);
                }
                // second corrections took the multipliers as they were; now what counts as zero is known again
                if rng.percent(50) {
                    check(rng, &mut sheet, 60);
                    brink(rng, &mut sheet);
                }
            }
        },
        7 => {
            scramble(rng, &mut sheet);
            if !bare && rng.percent(5) {
                torn(rng, &mut sheet);
            }
        }
        11 => match rng.below(8) {
            0 => beyond(rng, &mut sheet),
            1 => pinch(rng, &mut sheet),
            2 | 3 => {
                without_room(&mut sheet);
                cancelled(rng, &mut sheet);
            }
            _ => {
                without_room(&mut sheet);
                if rng.percent(60) {
                    low_parts(rng, &mut sheet);
                }
                aim(rng, &mut sheet);
                nudge(rng, &mut sheet);
            }
        },
        12 => reaches(rng, &mut sheet),
        _ => {}
    }
    // a leaving slack whose row is dropped
    if class != 8 && class != 12 && rng.percent(4) {
        let leaving = (0..sheet.basic.len()).find(|&v| sheet.basic[v] != 0 && sheet.places[v] == sheet.leaving_row);
        if let Some(r) = leaving.and_then(|v| v.checked_sub(sheet.structurals)) {
            (sheet.rho_hi[r], sheet.rho_lo[r]) = (rng.pick(&[0.0, -0.0]), 0.0);
        }
    }
    sheet
}

/// A sound sheet of a given size, of ordinary doubles; tests/texts has use for it.
#[allow(dead_code)]
pub fn of_size(rng: &mut Rng, rows: usize, structurals: usize, dense: usize) -> Sheet {
    let mut sheet = frame(rng, Size { rows, structurals, dense, full: false, bare: false });
    fill(rng, &mut sheet, PLAN, false);
    sheet
}

/// Which class a sheet of a run is of: each but the last in turn, those at the limits of size more rarely since they
/// are dear. Of the turns that these leave, every second is the last class's, and the others those of ordinary
/// doubles.
pub fn class_of(sheet: u64) -> usize {
    let last = CLASSES.len() - 1;
    let (round, class) = (sheet / last as u64, (sheet % last as u64) as usize);
    match class {
        8 if round % 50 == 0 => 8,
        8 if round % 2 == 1 => last,
        8 => 1,
        _ => class,
    }
}

/// Sheets for the timing (tests/benchmark): entries in all, and whether checked. They hold, and every walk goes through.
#[allow(dead_code)]
pub fn timed(rng: &mut Rng, entries: usize, checked: bool) -> Sheet {
    let (rows, structurals, dense) = match entries {
        4 => (2, 2, 1),
        64 => (8, 16, 7),
        128 => (16, 32, 7),
        256 => (16, 32, 15),
        512 => (32, 64, 15),
        1024 => (64, 128, 15),
        2048 => (64, 128, 31),
        4096 => (128, 256, 31),
        _ => panic!("no sheet of {entries} entries"),
    };
    let plan = Plan { open: 10, aim: 100, nudge: 0, checked: 0, ..PLAN };
    loop {
        let mut sheet = frame(rng, Size { rows, structurals, dense, full: true, bare: false });
        fill(rng, &mut sheet, plan, false);
        if checked {
            sheet.checked = 1;
            for r in 0..rows {
                sheet.second[r] = sheet.y(r) * UNIT * rng.pick(&[0.5, -0.25, 0.125]);
            }
        }
        let found = answer(&sheet);
        if sheet.first_no() == 0 && found.holds && found.walk == Walk::Through && found.errors.is_some() == checked {
            return sheet;
        }
    }
}
