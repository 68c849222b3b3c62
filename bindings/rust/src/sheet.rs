//! A sheet with lists of its own.
use crate::builder::{State, Variable};
use crate::refusal::Refusal;
use crate::slices::{weigh_into, Lists, Slices, Widened};
use crate::verdict::{Certificate, Verdict};
use alloc::string::String;
use alloc::vec;
use alloc::vec::Vec;
use core::fmt::{self, Write};

/// A sheet: the rows, ranges, basis and multipliers that a "no" of the solver rests on. Made by a
/// [`SheetBuilder`](crate::SheetBuilder). `Display` writes it as text.
#[derive(Clone, Debug, Default)]
pub struct Sheet {
    pub(crate) rows: usize,
    pub(crate) structurals: usize,
    pub(crate) feasibility: f64,
    pub(crate) checked: bool,
    pub(crate) leaving_row: usize,
    pub(crate) leaving_up: bool,
    pub(crate) starts: Vec<usize>,
    pub(crate) columns: Vec<usize>,
    pub(crate) entries: Vec<f64>,
    pub(crate) right_sides: Vec<f64>,
    pub(crate) scales: Vec<f64>,
    pub(crate) integer: Vec<u8>,
    pub(crate) mins: Vec<f64>,
    pub(crate) maxs: Vec<f64>,
    pub(crate) low_tolerances: Vec<f64>,
    pub(crate) high_tolerances: Vec<f64>,
    pub(crate) basic: Vec<u8>,
    pub(crate) places: Vec<usize>,
    pub(crate) values: Vec<f64>,
    pub(crate) widened: Vec<Widened>,
    pub(crate) rho_hi: Vec<f64>,
    pub(crate) rho_lo: Vec<f64>,
    pub(crate) second: Vec<f64>,
}

impl Sheet {
    pub(crate) fn push_variable(&mut self, variable: Variable) {
        let (basic, place) = match variable.state {
            State::Basic { place } => (1, place),
            State::NonBasic => (0, 0),
        };
        self.mins.push(variable.min);
        self.maxs.push(variable.max);
        self.low_tolerances.push(variable.low_tolerance);
        self.high_tolerances.push(variable.high_tolerance);
        self.basic.push(basic);
        self.places.push(place);
        self.values.push(variable.value);
    }

    pub(crate) fn push_row(&mut self, entries: impl Iterator<Item = (usize, f64)>, right_side: f64, scale: f64) {
        for (column, entry) in entries {
            self.columns.push(column);
            self.entries.push(entry);
        }
        self.starts.push(self.entries.len());
        self.right_sides.push(right_side);
        self.scales.push(scale);
    }

    /// The sheet in slices, for [`weigh_into`].
    pub fn slices(&self) -> Slices<'_> {
        Slices {
            rows: self.rows,
            structurals: self.structurals,
            entry_count: self.entries.len(),
            feasibility: self.feasibility,
            checked: self.checked,
            leaving_row: self.leaving_row,
            leaving_up: self.leaving_up,
            starts: &self.starts,
            columns: &self.columns,
            entries: &self.entries,
            right_sides: &self.right_sides,
            scales: &self.scales,
            integer: &self.integer,
            mins: &self.mins,
            maxs: &self.maxs,
            low_tolerances: &self.low_tolerances,
            high_tolerances: &self.high_tolerances,
            basic: &self.basic,
            places: &self.places,
            values: &self.values,
            widened: &self.widened,
            rho_hi: &self.rho_hi,
            rho_lo: &self.rho_lo,
            second: &self.second,
        }
    }

    /// The sheet as text, for [`weigh_text`](crate::weigh_text), the program `weigh`, or an archive of declined orders.
    /// A large sheet may have more bytes than a text may have.
    pub fn to_text(&self) -> String {
        let mut text = String::new();
        // writing to a string does not fail
        let _ = write!(text, "{self}");
        text
    }

    fn write_variable(&self, f: &mut fmt::Formatter<'_>, v: usize) -> fmt::Result {
        match self.integer.get(v) {
            Some(0) => write!(f, "(var r")?,
            Some(_) => write!(f, "(var i")?,
            None => write!(f, "(slack")?,
        }
        for x in [self.mins[v], self.maxs[v], self.low_tolerances[v], self.high_tolerances[v]] {
            write!(f, " {:X}", x.to_bits())?;
        }
        let value = self.values[v].to_bits();
        match self.basic[v] {
            0 => writeln!(f, " (nonbasic {value:X}))"),
            _ => writeln!(f, " (basic {} {value:X}))", self.places[v]),
        }
    }

    fn write_row(&self, f: &mut fmt::Formatter<'_>, r: usize) -> fmt::Result {
        write!(f, "(row {:X} {:X}", self.right_sides[r].to_bits(), self.scales[r].to_bits())?;
        for k in self.starts[r]..self.starts[r + 1] {
            write!(f, " ({} {:X})", self.columns[k], self.entries[k].to_bits())?;
        }
        writeln!(f, ")")
    }

    fn write_multiplier(&self, f: &mut fmt::Formatter<'_>, r: usize) -> fmt::Result {
        write!(f, "(rho {:X} {:X}", self.rho_hi[r].to_bits(), self.rho_lo[r].to_bits())?;
        match self.second.get(r) {
            Some(second) if self.checked => writeln!(f, " {:X})", second.to_bits()),
            _ => writeln!(f, ")"),
        }
    }
}

impl fmt::Display for Sheet {
    fn fmt(&self, f: &mut fmt::Formatter<'_>) -> fmt::Result {
        writeln!(f, "(sheet {} {})", self.rows, self.structurals)?;
        writeln!(f, "(feasibility {:X})", self.feasibility.to_bits())?;
        for v in 0..self.values.len() {
            self.write_variable(f, v)?;
        }
        for r in 0..self.rows {
            self.write_row(f, r)?;
        }
        for Widened { variable, up } in &self.widened {
            writeln!(f, "(widened {variable} {})", if *up == 0 { "down" } else { "up" })?;
        }
        writeln!(f, "(multipliers {})", if self.checked { "checked" } else { "unchecked" })?;
        for r in 0..self.rho_hi.len() {
            self.write_multiplier(f, r)?;
        }
        writeln!(f, "(leave {} {})", self.leaving_row, if self.leaving_up { "up" } else { "down" })
    }
}

/// The verdict on a sheet, with the certificate in lists of its own. [`weigh_into`] does the same without allocating.
///
/// ```
/// use ushnazar::{weigh, Direction, Domain, Multipliers, Pair, SheetBuilder, State, Variable};
///
/// // one cake at most, and a row that asks for three: cake + slack = 3, the slack held at 0
/// let mut book = SheetBuilder::new(0.0);
/// let cake = book.structural(
///     Domain::Integer,
///     Variable { min: 0.0, max: 1.0, value: 1.0, ..Variable::default() },
/// );
/// book.row_and_slack(
///     [(cake, 1.0)],
///     3.0,
///     1.0,
///     Variable { state: State::Basic { place: 0 }, value: 2.0, ..Variable::default() },
/// );
/// let multipliers = Multipliers::Unchecked { rho: vec![Pair { hi: 1.0, lo: 0.0 }] };
/// let sheet = book.build(multipliers, 0, Direction::Down);
///
/// let verdict = weigh(&sheet)?;
/// assert!(verdict.declined);
/// assert_eq!(verdict.outward, 2.0);
/// # Ok::<(), ushnazar::Refusal>(())
/// ```
///
/// # Errors
///
/// The first question whose answer is no.
pub fn weigh(sheet: &Sheet) -> Result<Verdict<Certificate>, Refusal> {
    let count = sheet.values.len();
    let [mut high, mut low, mut magnitudes, mut errors] = [(); 4].map(|()| vec![0.0; count]);
    let mut terms = vec![0; count];
    let lists =
        Lists { high: &mut high, low: &mut low, magnitudes: &mut magnitudes, terms: &mut terms, errors: &mut errors };
    let verdict = weigh_into(&sheet.slices(), lists)?;
    let errors_are_there = verdict.certificate.errors.is_some();
    let verdict = verdict.with(());
    let errors = errors_are_there.then_some(errors);
    Ok(verdict.with(Certificate { high, low, magnitudes, terms, errors }))
}
