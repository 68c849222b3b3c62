//! A sheet put together from what the solver holds.
use crate::sheet::Sheet;
use crate::slices::Widened;
use alloc::vec;
use alloc::vec::Vec;

/// What values a structural variable may take.
#[derive(Clone, Copy, Debug, PartialEq, Eq)]
pub enum Domain {
    /// Whole numbers; the solver's Boolean variables are among them.
    Integer,
    /// Any number.
    Real,
}

/// Whether a variable is in the basis.
#[derive(Clone, Copy, Debug, Default, PartialEq, Eq)]
pub enum State {
    /// In the basis.
    Basic {
        /// Its place there, below the row count; no other variable has it.
        place: usize,
    },
    /// Not in the basis.
    #[default]
    NonBasic,
}

/// A side of a variable's range.
#[derive(Clone, Copy, Debug, PartialEq, Eq)]
pub enum Side {
    /// The upper bound's.
    Up,
    /// The lower bound's.
    Down,
}

/// Where the leaving variable goes.
#[derive(Clone, Copy, Debug, PartialEq, Eq)]
pub enum Direction {
    /// Up: its value is below its lower bound.
    Up,
    /// Down: its value is above its upper bound.
    Down,
}

/// A variable, structural or slack. The default is fixed at 0, without tolerances, not in the basis.
#[derive(Clone, Copy, Debug, Default, PartialEq)]
pub struct Variable {
    /// The lower bound, or −infinity.
    pub min: f64,
    /// The upper bound, or +infinity.
    pub max: f64,
    /// The tolerance toward the lower bound.
    pub low_tolerance: f64,
    /// The tolerance toward the upper bound.
    pub high_tolerance: f64,
    /// Whether it is in the basis, and where.
    pub state: State,
    /// Its value.
    pub value: f64,
}

/// A multiplier as the sum of two doubles.
#[derive(Clone, Copy, Debug, Default, PartialEq)]
pub struct Pair {
    /// The high part.
    pub hi: f64,
    /// The low part.
    pub lo: f64,
}

impl From<f64> for Pair {
    fn from(hi: f64) -> Self {
        Pair { hi, lo: 0.0 }
    }
}

/// The rows' multipliers: the row of the basis inverse that the leaving variable has. They may hold any bits.
#[derive(Clone, Debug, PartialEq)]
pub enum Multipliers {
    /// As they are, without an estimate of their errors.
    Unchecked {
        /// One for each row.
        rho: Vec<Pair>,
    },
    /// With the last correction of their refinement, from which their errors are estimated.
    Checked {
        /// One for each row.
        rho: Vec<Pair>,
        /// The second correction of each.
        second: Vec<f64>,
    },
}

#[derive(Clone, Debug)]
struct Row {
    entries: Vec<(usize, f64)>,
    slack_is_listed: bool,
    right_side: f64,
    scale: f64,
    slack: Variable,
}

/// Puts a sheet together. It takes whatever it is given, and what does not fit is refused when the sheet is weighed.
#[derive(Clone, Debug)]
pub struct SheetBuilder {
    feasibility: f64,
    structurals: Vec<(Domain, Variable)>,
    rows: Vec<Row>,
    widened: Vec<Widened>,
}

impl SheetBuilder {
    /// A sheet without rows and variables. `feasibility` is the absolute tolerance of the solver's user.
    pub fn new(feasibility: f64) -> Self {
        SheetBuilder { feasibility, structurals: Vec::new(), rows: Vec::new(), widened: Vec::new() }
    }

    /// Adds a structural variable, and answers its number, which is its column.
    pub fn structural(&mut self, domain: Domain, variable: Variable) -> usize {
        self.structurals.push((domain, variable));
        self.structurals.len() - 1
    }

    /// Adds a row as the solver holds it: (column, entry) pairs in ascending columns, the row's own slack, of number
    /// structural count + row and entry 1, as the last. Answers the row's number.
    pub fn row(
        &mut self,
        entries: impl IntoIterator<Item = (usize, f64)>,
        right_side: f64,
        scale: f64,
        slack: Variable,
    ) -> usize {
        self.push_row(entries.into_iter().collect(), true, right_side, scale, slack)
    }

    /// Adds a row of structural variables alone; the entry of its own slack is added to them. Answers the row's number.
    pub fn row_and_slack(
        &mut self,
        entries: impl IntoIterator<Item = (usize, f64)>,
        right_side: f64,
        scale: f64,
        slack: Variable,
    ) -> usize {
        self.push_row(entries.into_iter().collect(), false, right_side, scale, slack)
    }

    fn push_row(
        &mut self,
        entries: Vec<(usize, f64)>,
        slack_is_listed: bool,
        right_side: f64,
        scale: f64,
        slack: Variable,
    ) -> usize {
        self.rows.push(Row { entries, slack_is_listed, right_side, scale, slack });
        self.rows.len() - 1
    }

    /// Says that the solver widened this side of this variable; a row's slack has the number structural count + row.
    pub fn widened(&mut self, variable: usize, side: Side) -> &mut Self {
        self.widened.push(Widened { variable, up: u8::from(side == Side::Up) });
        self
    }

    /// The sheet, with its multipliers, the basis place of the variable that leaves, and where that variable goes.
    pub fn build(self, multipliers: Multipliers, leaving_row: usize, direction: Direction) -> Sheet {
        let rows = self.rows.len();
        let structurals = self.structurals.len();
        let (checked, rho, second) = match multipliers {
            Multipliers::Unchecked { rho } => (false, rho, vec![0.0; rows]),
            Multipliers::Checked { rho, second } => (true, rho, second),
        };
        let mut sheet = Sheet {
            rows,
            structurals,
            feasibility: self.feasibility,
            checked,
            leaving_row,
            leaving_up: direction == Direction::Up,
            starts: vec![0],
            rho_hi: rho.iter().map(|pair| pair.hi).collect(),
            rho_lo: rho.iter().map(|pair| pair.lo).collect(),
            second,
            widened: self.widened,
            ..Sheet::default()
        };
        for (domain, variable) in self.structurals {
            sheet.integer.push(u8::from(domain == Domain::Integer));
            sheet.push_variable(variable);
        }
        for (number, row) in self.rows.into_iter().enumerate() {
            let own = (!row.slack_is_listed).then_some((structurals + number, 1.0));
            sheet.push_row(row.entries.into_iter().chain(own), row.right_side, row.scale);
            sheet.push_variable(row.slack);
        }
        sheet
    }
}
