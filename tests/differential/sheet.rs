//! A sheet in vectors of its own, and document 01's questions put to it.

pub const FILL: u64 = 0x5A5A_5A5A_5A5A_5A5A;
pub const FILL_TERMS: u32 = 0x5A5A_5A5A;

/// An item of the widened list, laid out as `sheet_verdict` takes it. The bytes behind the flag have a name here, so that they
/// can be set and looked at; no answer may depend on them.
#[repr(C)]
#[derive(Clone, Copy, Default)]
pub struct Widened {
    pub variable: usize,
    pub up: u8,
    pub behind: [u8; 7],
}

impl Widened {
    pub fn of(variable: usize, up: u8) -> Self {
        // not 0 behind a flag that is
        Widened { variable, up, behind: [!up; 7] }
    }

    /// What it says.
    pub fn side(&self) -> (usize, bool) {
        (self.variable, self.up != 0)
    }
}

#[derive(Clone, Default)]
pub struct Sheet {
    pub class: usize,
    /// What it was made with, in place of which a damaged sheet may say something else below.
    pub made_rows: usize,
    pub made_structurals: usize,
    pub rows: usize,
    pub structurals: usize,
    pub entry_count: usize,
    pub feasibility: f64,
    pub checked: u8,
    pub leaving_row: usize,
    pub leaving_up: u8,
    pub starts: Vec<usize>,
    pub columns: Vec<usize>,
    pub entries: Vec<f64>,
    pub right_sides: Vec<f64>,
    pub scales: Vec<f64>,
    pub integer: Vec<u8>,
    pub mins: Vec<f64>,
    pub maxs: Vec<f64>,
    pub low_tolerances: Vec<f64>,
    pub high_tolerances: Vec<f64>,
    pub basic: Vec<u8>,
    pub places: Vec<usize>,
    pub values: Vec<f64>,
    pub widened: Vec<Widened>,
    pub rho_hi: Vec<f64>,
    pub rho_lo: Vec<f64>,
    pub second: Vec<f64>,
    /// Lengths of the outputs: high, low, magnitudes, terms, errors.
    pub outputs: [usize; 5],
}

impl Sheet {
    /// The multiplier of a row as the certificate takes it, but for the rounding of `normalized`.
    pub fn y(&self, r: usize) -> f64 {
        let rho = self.rho_hi[r] + self.rho_lo[r];
        if self.leaving_up != 0 { -rho } else { rho }
    }

    pub fn part(&self, r: usize) -> std::ops::Range<usize> {
        self.starts[r]..self.starts[r + 1]
    }

    /// The sides that the widened list holds.
    pub fn sides(&self) -> Vec<(usize, bool)> {
        self.widened.iter().map(Widened::side).collect()
    }

    /// The lent slices of doubles, of counts and of flags, in the order in which a call lends them.
    pub fn doubles(&self) -> [&Vec<f64>; 11] {
        [
            &self.entries,
            &self.right_sides,
            &self.scales,
            &self.mins,
            &self.maxs,
            &self.low_tolerances,
            &self.high_tolerances,
            &self.values,
            &self.rho_hi,
            &self.rho_lo,
            &self.second,
        ]
    }

    pub fn counts(&self) -> [&Vec<usize>; 3] {
        [&self.starts, &self.columns, &self.places]
    }

    pub fn flags(&self) -> [&Vec<u8>; 2] {
        [&self.integer, &self.basic]
    }

    pub fn doubles_to_change(&mut self) -> [&mut Vec<f64>; 11] {
        [
            &mut self.entries,
            &mut self.right_sides,
            &mut self.scales,
            &mut self.mins,
            &mut self.maxs,
            &mut self.low_tolerances,
            &mut self.high_tolerances,
            &mut self.values,
            &mut self.rho_hi,
            &mut self.rho_lo,
            &mut self.second,
        ]
    }

    pub fn counts_to_change(&mut self) -> [&mut Vec<usize>; 3] {
        [&mut self.starts, &mut self.columns, &mut self.places]
    }

    pub fn flags_to_change(&mut self) -> [&mut Vec<u8>; 2] {
        [&mut self.integer, &mut self.basic]
    }

    /// The number of the first question that refuses the sheet, 0 if none does.
    pub fn first_no(&self) -> u32 {
        let questions: [fn(&Sheet) -> bool; 11] = [
            Sheet::sizes,
            Sheet::lengths,
            Sheet::row_starts,
            Sheet::row_columns,
            Sheet::numbers,
            Sheet::bounds,
            Sheet::tolerances,
            Sheet::basis,
            Sheet::points,
            Sheet::widened,
            Sheet::leaving,
        ];
        questions.iter().position(|question| !question(self)).map_or(0, |at| at as u32 + 2)
    }

    fn sizes(&self) -> bool {
        (1..=128).contains(&self.rows) && self.structurals <= 256 && self.entry_count <= 4096
    }

    fn lengths(&self) -> bool {
        let count = self.structurals + self.rows;
        self.starts.len() == self.rows + 1
            && self.columns.len() == self.entry_count
            && self.entries.len() == self.entry_count
            && [&self.right_sides, &self.scales, &self.rho_hi, &self.rho_lo, &self.second]
                .iter()
                .all(|slice| slice.len() == self.rows)
            && self.integer.len() == self.structurals
            && [&self.mins, &self.maxs, &self.low_tolerances, &self.high_tolerances, &self.values]
                .iter()
                .all(|slice| slice.len() == count)
            && self.basic.len() == count
            && self.places.len() == count
            && self.outputs.iter().all(|&length| length >= count)
    }

    fn row_starts(&self) -> bool {
        self.starts[0] == 0
            && self.starts.windows(2).all(|pair| pair[0] <= pair[1])
            && self.starts[self.rows] == self.entry_count
    }

    fn row_columns(&self) -> bool {
        (0..self.rows).all(|r| match self.columns[self.part(r)].split_last() {
            None => false,
            Some((&last, others)) => {
                last == self.structurals + r
                    && others.iter().all(|&column| column < self.structurals)
                    && others.windows(2).all(|pair| pair[0] < pair[1])
            }
        })
    }

    fn numbers(&self) -> bool {
        self.entries.iter().chain(&self.right_sides).all(|x| x.is_finite())
            && (0..self.rows).all(|r| self.entries[self.starts[r + 1] - 1] == 1.0)
    }

    fn bounds(&self) -> bool {
        (self.mins.iter().zip(&self.maxs))
            .all(|(&min, &max)| min <= max && min != f64::INFINITY && max != f64::NEG_INFINITY)
    }

    fn tolerances(&self) -> bool {
        let clear = |x: &f64| x.is_finite() && x.to_bits() >> 63 == 0;
        self.low_tolerances.iter().chain(&self.high_tolerances).chain(&self.scales).all(clear)
            && clear(&self.feasibility)
            && self.scales.iter().all(|scale| (self.feasibility * scale).is_finite())
    }

    fn basis(&self) -> bool {
        let mut held: Vec<usize> =
            (0..self.basic.len()).filter(|&var| self.basic[var] != 0).map(|var| self.places[var]).collect();
        held.sort();
        held.into_iter().eq(0..self.rows)
    }

    fn points(&self) -> bool {
        self.values.iter().all(|x| x.is_finite())
    }

    fn widened(&self) -> bool {
        let count = self.structurals + self.rows;
        let mut items = self.sides();
        items.sort();
        items.iter().all(|item| item.0 < count) && items.windows(2).all(|pair| pair[0] != pair[1])
    }

    fn leaving(&self) -> bool {
        self.leaving_row < self.rows
    }
}
