//! Damage to sheets that questions refuse.
use super::numbers::{Rng, power};
use super::sheet;
use crate::sheet::{Sheet, Widened};

/// A sound sheet with one kind of damage or a few.
pub fn damaged(rng: &mut Rng, bare: bool) -> Sheet {
    let class = rng.pick(&[0, 0, 1, 1, 2, 3, 5, 7, 10]);
    let sound = sheet(rng, class, bare);
    // some of the damage does none; such a sheet is damaged again, mostly
    loop {
        let mut sheet = Sheet { class: 9, ..sound.clone() };
        for _ in 0..rng.pick(&[1, 1, 1, 2, 2, 3, 5]) {
            let question = 2 + rng.below(11);
            damage(rng, &mut sheet, question, bare);
        }
        if sheet.first_no() != 0 || (!bare && rng.percent(10)) {
            return sheet;
        }
    }
}

pub const NOT_FINITE: [f64; 3] = [f64::NAN, f64::INFINITY, f64::NEG_INFINITY];

pub fn put<T: Copy>(rng: &mut Rng, list: &mut [T], x: T) {
    if !list.is_empty() {
        let at = rng.below(list.len());
        list[at] = x;
    }
}

/// One place more or one fewer.
pub fn relength<T: Clone + Default>(rng: &mut Rng, list: &mut Vec<T>) {
    if rng.percent(50) || list.pop().is_none() {
        list.push(T::default());
    }
}

/// Damage that a question is likely to refuse.
pub fn damage(rng: &mut Rng, sheet: &mut Sheet, question: usize, bare: bool) {
    let huge = rng.pick(&[usize::MAX, usize::MAX - 1, 1 << 63, 1 << 32, usize::MAX - 127]);
    match question {
        2 => match rng.below(3) {
            0 => sheet.rows = rng.pick(&[0, 129, 256, huge]),
            1 => sheet.structurals = rng.pick(&[257, 258, 512, huge]),
            _ => sheet.entry_count = rng.pick(&[4097, 4098, huge]),
        },
        3 if bare => match rng.below(3) {
            0 => sheet.rows = rng.pick(&[sheet.rows + 1, 128, 1]),
            1 => sheet.structurals = rng.pick(&[sheet.structurals + 1, 256, 0]),
            _ => sheet.entry_count = rng.pick(&[sheet.entry_count + 1, 4096, 0]),
        },
        3 => match rng.below(24) {
            0 => relength(rng, &mut sheet.starts),
            1 => relength(rng, &mut sheet.columns),
            2 => relength(rng, &mut sheet.entries),
            3 => relength(rng, &mut sheet.right_sides),
            4 => relength(rng, &mut sheet.scales),
            5 => relength(rng, &mut sheet.integer),
            6 => relength(rng, &mut sheet.mins),
            7 => relength(rng, &mut sheet.maxs),
            8 => relength(rng, &mut sheet.low_tolerances),
            9 => relength(rng, &mut sheet.high_tolerances),
            10 => relength(rng, &mut sheet.basic),
            11 => relength(rng, &mut sheet.places),
            12 => relength(rng, &mut sheet.values),
            13 => relength(rng, &mut sheet.rho_hi),
            14 => relength(rng, &mut sheet.rho_lo),
            15 => relength(rng, &mut sheet.second),
            at @ 16..=20 => {
                let count = sheet.made_rows + sheet.made_structurals;
                sheet.outputs[at - 16] = rng.pick(&[count - 1, 0, count / 2]);
            }
            21 => sheet.rows = rng.pick(&[sheet.made_rows + 1, sheet.made_rows.max(2) - 1, 128]),
            22 => sheet.structurals = rng.pick(&[sheet.made_structurals + 1, sheet.made_structurals.max(1) - 1, 256]),
            _ => sheet.entry_count = rng.pick(&[sheet.entry_count.wrapping_add(1), sheet.entry_count.max(1) - 1, 0]),
        },
        4 => match rng.below(4) {
            0 => put(rng, &mut sheet.starts[..1], 1),
            1 => {
                let last = sheet.starts.len() - 1;
                sheet.starts[last] = rng.pick(&[sheet.entries.len() + 1, sheet.entries.len().max(1) - 1, usize::MAX]);
            }
            2 => {
                let (a, b) = (rng.below(sheet.starts.len()), rng.below(sheet.starts.len()));
                sheet.starts.swap(a, b);
            }
            _ => {
                let x = rng.pick(&[0, 1, sheet.entries.len() + 1, usize::MAX, 1 << 63]);
                put(rng, &mut sheet.starts, x);
            }
        },
        5 => {
            let count = sheet.made_rows + sheet.made_structurals;
            match rng.below(4) {
                0 if sheet.columns.len() > 1 => {
                    let at = rng.below(sheet.columns.len() - 1);
                    sheet.columns.swap(at, at + 1);
                }
                1 if sheet.columns.len() > 1 => {
                    let at = rng.below(sheet.columns.len() - 1);
                    sheet.columns[at + 1] = sheet.columns[at];
                }
                // a row without entries
                2 if sheet.starts.len() > 2 => {
                    let at = 1 + rng.below(sheet.starts.len() - 2);
                    sheet.starts[at] = sheet.starts[at - 1];
                }
                _ => {
                    let x = rng.pick(&[0, count, sheet.made_structurals, count - 1, usize::MAX, 1 << 63]);
                    put(rng, &mut sheet.columns, x);
                }
            }
        }
        6 => match rng.below(3) {
            0 => {
                let x = rng.pick(&NOT_FINITE);
                put(rng, &mut sheet.entries, x);
            }
            1 => {
                let x = rng.pick(&NOT_FINITE);
                put(rng, &mut sheet.right_sides, x);
            }
            // a slack entry, mostly
            _ => {
                let x = rng.pick(&[0.0, -1.0, 1f64.next_up(), 1f64.next_down(), 2.0]);
                if let Some(last) = sheet.entries.last_mut() {
                    *last = x;
                }
            }
        },
        7 => {
            let at = rng.below(sheet.mins.len().min(sheet.maxs.len()).max(1));
            if at < sheet.mins.len() && at < sheet.maxs.len() {
                match rng.below(6) {
                    0 => sheet.mins[at] = f64::NAN,
                    1 => sheet.maxs[at] = f64::NAN,
                    2 => sheet.mins[at] = f64::INFINITY,
                    3 => sheet.maxs[at] = f64::NEG_INFINITY,
                    4 => {
                        (sheet.mins[at], sheet.maxs[at]) =
                            rng.pick(&[(f64::INFINITY, f64::INFINITY), (f64::NEG_INFINITY, f64::NEG_INFINITY)])
                    }
                    _ => (sheet.mins[at], sheet.maxs[at]) = (1f64.next_up(), 1.0),
                }
            }
        }
        8 => {
            let x = rng.pick(&[f64::NAN, f64::INFINITY, -0.0, -1.0, -f64::from_bits(1)]);
            match rng.below(5) {
                0 => put(rng, &mut sheet.low_tolerances, x),
                1 => put(rng, &mut sheet.high_tolerances, x),
                2 => put(rng, &mut sheet.scales, x),
                3 => sheet.feasibility = x,
                _ => {
                    sheet.feasibility = power(600);
                    put(rng, &mut sheet.scales, power(600));
                }
            }
        }
        9 => match rng.below(4) {
            0 => put(rng, &mut sheet.basic, 1),
            1 => put(rng, &mut sheet.basic, 0),
            // what holds no place may say any
            2 => {
                let x = rng.pick(&[0, sheet.made_rows, sheet.made_rows - 1, usize::MAX]);
                put(rng, &mut sheet.places, x);
            }
            _ => {
                for at in 0..sheet.places.len() {
                    sheet.places[at] = rng.pick(&[sheet.places[at], sheet.places[at] / 2]);
                }
            }
        },
        10 => {
            let x = rng.pick(&NOT_FINITE);
            put(rng, &mut sheet.values, x);
        }
        11 => {
            let count = sheet.made_rows + sheet.made_structurals;
            if sheet.widened.is_empty() || (!bare && rng.percent(40)) {
                let ups = if rng.percent(50) { [1, 2] } else { [0, 0] };
                sheet.widened.extend(ups.map(|up| Widened::of(count - 1, up)));
            }
            match rng.below(3) {
                0 => {
                    let x = rng.pick(&[count, count + 1, usize::MAX]);
                    let at = rng.below(sheet.widened.len());
                    sheet.widened[at].variable = x;
                }
                1 => {
                    let x = rng.below(count);
                    sheet.widened.iter_mut().for_each(|item| item.variable = x);
                }
                _ => {}
            }
        }
        _ => sheet.leaving_row = rng.pick(&[sheet.made_rows, sheet.made_rows + 1, usize::MAX, 128]),
    }
}
