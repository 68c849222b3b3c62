//! Texts about the limits: of length, of rows, structural variables, entries and widened lines.
use crate::draft::Draft;
use crate::form::MOST_BYTES;
use crate::generate::{Rng, of_size};
use crate::sheet::{Sheet, Widened};

#[derive(Clone, Copy)]
pub enum Large {
    /// A text of so many bytes, from the first to the second number.
    Bytes(usize, usize),
    /// Rows, structural variables, entries and widened lines, each from the first to the second number.
    Sizes([(usize, usize); 4]),
}
use Large::*;

pub const KINDS: [(&str, Large); 12] = [
    ("just 65,536 bytes", Bytes(MOST_BYTES, MOST_BYTES)),
    ("just 65,537 bytes", Bytes(MOST_BYTES + 1, MOST_BYTES + 1)),
    ("about 65,536 bytes", Bytes(MOST_BYTES - 9, MOST_BYTES + 9)),
    ("about 128 rows", Sizes([(126, 130), (0, 2), (200, 200), (3, 3)])),
    ("hundreds of rows", Sizes([(129, 1000), (0, 2), (200, 200), (3, 3)])),
    ("about 256 structural variables", Sizes([(1, 3), (254, 258), (300, 300), (3, 3)])),
    ("thousands of structural variables", Sizes([(1, 3), (257, 2000), (300, 300), (3, 3)])),
    ("about 4,096 entries", Sizes([(32, 128), (256, 256), (4094, 4098), (3, 3)])),
    ("thousands of entries", Sizes([(32, 128), (256, 256), (4097, 6000), (3, 3)])),
    ("about 768 widened lines", Sizes([(128, 128), (256, 256), (128, 128), (766, 770)])),
    ("thousands of widened lines", Sizes([(1, 3), (0, 2), (5, 5), (769, 4000)])),
    ("every limit at once", Sizes([(128, 128), (256, 256), (4096, 4096), (768, 768)])),
];

/// The other end, in few bytes.
pub const NO_ROWS: Large = Sizes([(0, 0), (0, 3), (0, 0), (0, 2)]);

pub fn text(rng: &mut Rng, large: Large) -> Vec<u8> {
    let mut from_to = |(least, most): (usize, usize)| rng.within(least as i64, most as i64) as usize;
    match large {
        Bytes(least, most) => {
            let length = from_to((least, most));
            padded(rng, length)
        }
        Sizes(sizes) => {
            let sizes = sizes.map(from_to);
            plain(rng, sizes)
        }
    }
}

/// A sheet with many numbers that can take zeros in front, in a text of just so many bytes.
fn padded(rng: &mut Rng, length: usize) -> Vec<u8> {
    loop {
        let (rows, structurals) = (60 + rng.below(69), 120 + rng.below(137));
        let dense = 1 + rng.below(30);
        let sheet = of_size(rng, rows, structurals, dense);
        if let Some(text) = Draft::of(&sheet).of_length(rng, length) {
            assert_eq!(text.len(), length);
            return text;
        }
    }
}

/// A sheet of rows, structural variables, entries and widened sides, nearly all numbers 0, so that it takes few bytes.
/// Where the sides are used up, widened lines come again.
fn plain(rng: &mut Rng, [rows, structurals, entries, widened]: [usize; 4]) -> Vec<u8> {
    let count = rows + structurals;
    let mut sheet = Sheet {
        rows,
        structurals,
        feasibility: rng.pick(&[0.0, 1e-9]),
        leaving_row: rng.below(rows.max(1)),
        leaving_up: rng.below(2) as u8,
        starts: vec![0],
        right_sides: vec![0.0; rows],
        scales: vec![0.0; rows],
        integer: vec![0; structurals],
        mins: vec![0.0; count],
        maxs: vec![0.0; count],
        low_tolerances: vec![0.0; count],
        high_tolerances: vec![0.0; count],
        basic: vec![0; count],
        places: vec![0; count],
        values: vec![0.0; count],
        rho_hi: vec![0.0; rows],
        rho_lo: vec![0.0; rows],
        second: vec![0.0; rows],
        widened: (0..widened).map(|at| Widened::of(at / 2 % count.max(1), (at % 2) as u8)).collect(),
        ..Sheet::default()
    };
    for r in 0..rows {
        // as many as are left for each row that is left, where that many columns are
        let left = entries.saturating_sub(sheet.columns.len() + (rows - r));
        for column in 0..left.div_ceil(rows - r).min(structurals) {
            sheet.columns.push(column);
            sheet.entries.push(if rng.percent(3) { 1.0 } else { 0.0 });
        }
        sheet.columns.push(structurals + r);
        sheet.entries.push(1.0);
        sheet.starts.push(sheet.columns.len());
        let slack = structurals + r;
        (sheet.basic[slack], sheet.places[slack]) = (1, r);
        if rng.percent(10) {
            (sheet.rho_hi[r], sheet.right_sides[r]) = (1.0, rng.within(-2, 9) as f64);
        }
    }
    Draft::of(&sheet).shortest()
}
