//! Sheets as nobody would lend them: slices of any length, any bits, sizes near 2^64. No two slices share memory.
use crate::generate::{self, Rng};
use crate::sheet::{Sheet, Widened};

pub const CLASSES: [&str; 5] = [
    "a sound sheet with places changed",
    "sound slices, any sizes",
    "sizes that fit, any contents",
    "any lengths, any contents",
    "damaged for a question",
];

fn any_double(rng: &mut Rng) -> f64 {
    let special = [0.0, -0.0, 1.0, -1.0, f64::NAN, f64::INFINITY, f64::NEG_INFINITY, f64::MAX, f64::from_bits(1)];
    match rng.below(3) {
        0 => rng.pick(&special),
        1 => rng.within(-4, 4) as f64,
        _ => f64::from_bits(rng.next()),
    }
}

fn any_count(rng: &mut Rng) -> usize {
    match rng.below(4) {
        0 => rng.below(4),
        1 => rng.below(400),
        2 => rng.pick(&[127, 128, 129, 255, 256, 257, 4095, 4096, 4097, 65_536]),
        _ => usize::MAX - rng.pick(&[0, 1, 2, 127, 128, 256, 384, 4096, 1 << 32, 1 << 62, (1 << 63) - 1, 1 << 63]),
    }
}

/// One place of one slice, or one of the numbers beside them.
fn change(rng: &mut Rng, sheet: &mut Sheet) {
    let (double, count, flag) = (any_double(rng), any_count(rng), rng.next() as u8);
    match rng.below(25) {
        0 => sheet.feasibility = double,
        1 => sheet.checked = flag,
        2 => sheet.leaving_row = count,
        3 => sheet.leaving_up = flag,
        4 => sheet.rows = count,
        5 => sheet.structurals = count,
        6 => sheet.entry_count = count,
        at @ 7..18 => put(rng, sheet.doubles_to_change()[at - 7], double),
        at @ 18..21 => put(rng, sheet.counts_to_change()[at - 18], count),
        at @ 21..23 => put(rng, sheet.flags_to_change()[at - 21], flag),
        _ if sheet.widened.is_empty() => {}
        at => {
            let place = rng.below(sheet.widened.len());
            let item = &mut sheet.widened[place];
            if at == 23 { item.variable = count } else { item.up = flag }
        }
    }
}

fn put<T: Copy>(rng: &mut Rng, list: &mut [T], x: T) {
    if !list.is_empty() {
        let at = rng.below(list.len());
        list[at] = x;
    }
}

fn any_sizes(rng: &mut Rng, sheet: &mut Sheet) {
    let sizes = [&mut sheet.rows, &mut sheet.structurals, &mut sheet.entry_count];
    for size in sizes {
        if rng.percent(60) {
            *size = any_count(rng);
        }
    }
}

/// Any contents in slices of the lengths that they have; now and then with what the first questions ask of them.
fn any_contents(rng: &mut Rng, sheet: &mut Sheet) {
    for list in sheet.doubles_to_change() {
        list.fill_with(|| any_double(rng));
    }
    for list in sheet.counts_to_change() {
        list.fill_with(|| any_count(rng));
    }
    let any_flag = |rng: &mut Rng| rng.next() as u8 & rng.pick(&[0xFF, 1, 0]);
    for list in sheet.flags_to_change() {
        list.fill_with(|| any_flag(rng));
    }
    sheet.widened.fill_with(|| Widened::of(any_count(rng), any_flag(rng)));
    (sheet.feasibility, sheet.leaving_row) = (any_double(rng), any_count(rng));
    (sheet.checked, sheet.leaving_up) = (rng.next() as u8, rng.next() as u8);
}

fn any_lengths(rng: &mut Rng, sheet: &mut Sheet) {
    let mut length = || rng.pick(&[0, 1, 2, 3, 4, 5, 8, 16, 130, 400]).max(rng.below(6));
    sheet.doubles_to_change().into_iter().for_each(|list| list.resize(length(), 0.0));
    sheet.counts_to_change().into_iter().for_each(|list| list.resize(length(), 0));
    sheet.flags_to_change().into_iter().for_each(|list| list.resize(length(), 0));
    sheet.widened.resize(length(), Widened::of(0, 0));
    sheet.outputs = [(); 5].map(|()| length());
}

pub fn sheet(rng: &mut Rng) -> Sheet {
    let class = rng.pick(&[0, 0, 0, 1, 2, 2, 3, 4]);
    let like = rng.pick(&[0, 1, 2, 3, 4, 5, 6, 7, 10, 11]);
    let mut sheet = if rng.percent(1) { generate::sheet(rng, 8, false) } else { generate::sheet(rng, like, false) };
    match class {
        0 => (0..rng.within(1, 6)).for_each(|_| change(rng, &mut sheet)),
        1 => any_sizes(rng, &mut sheet),
        2 => {
            let (starts, columns) = (sheet.starts.clone(), sheet.columns.clone());
            any_contents(rng, &mut sheet);
            if rng.percent(50) {
                (sheet.starts, sheet.columns) = (starts, columns);
            }
        }
        3 => {
            any_lengths(rng, &mut sheet);
            any_contents(rng, &mut sheet);
            any_sizes(rng, &mut sheet);
        }
        _ => sheet = generate::sheet(rng, 9, false),
    }
    sheet.class = class;
    sheet
}
