//! The Rust that the kept functions follow, cut out of its documents (tests/cut.py), over a solver with the fields that it
//! reads. It runs a sheet that no question refuses.
//!
//! By hand, since the three documents do not have them: the fields' struct, the domains, the sparse rows, and the three
//! bodies that document 01 gives under "Bodies not in the three files". `debug!` is nothing, since 01 leaves out logging.
//!
//! All of it is the Rust unchanged but for `mul_up`, whose promise is another since request 5 of document 02. The
//! Rust's own is in a place of its own, and the one that the judgement calls (products.rs) runs it and answers as it
//! does, unless the promised product is asked for. Built with the cfg `timed`, for the timing, the judgement calls the
//! Rust's own.
use crate::products;
use crate::sheet::Sheet;

macro_rules! debug {
    ($($word:tt)*) => {};
}

include!(concat!(env!("CUT"), "/sums.rs"));
include!(concat!(env!("CUT"), "/judgement.rs"));

#[cfg(timed)]
include!(concat!(env!("CUT"), "/mul_up.rs"));

#[cfg(not(timed))]
mod own {
    use super::CDouble;

    include!(concat!(env!("CUT"), "/mul_up.rs"));

    // below the module, so that it sees what is private there
    pub mod lent {
        pub fn mul_up(a: f64, b: f64) -> f64 {
            super::mul_up(a, b)
        }
    }
}

#[cfg(not(timed))]
fn mul_up(a: f64, b: f64) -> f64 {
    products::taken(a, b, own::lent::mul_up(a, b))
}

/// 01: Integer and Boolean are both "integer".
enum VarDomain {
    Real,
    Integer,
    #[allow(dead_code)]
    Boolean,
}

/// Rows of (column, entry) pairs.
struct CsMat {
    starts: Vec<usize>,
    columns: Vec<usize>,
    entries: Vec<f64>,
}

struct RowView<'a> {
    columns: &'a [usize],
    entries: &'a [f64],
}

impl CsMat {
    fn rows(&self) -> usize {
        self.starts.len() - 1
    }

    /// 01: a row's (column, entry) pairs in stored order.
    fn outer_view(&self, r: usize) -> Option<RowView<'_>> {
        let part = *self.starts.get(r)?..*self.starts.get(r + 1)?;
        Some(RowView { columns: &self.columns[part.clone()], entries: &self.entries[part] })
    }
}

impl<'a> RowView<'a> {
    fn iter(&self) -> impl Iterator<Item = (usize, &'a f64)> {
        self.columns.iter().copied().zip(self.entries)
    }

    fn nnz(&self) -> usize {
        self.columns.len()
    }
}

pub struct Solver {
    num_vars: usize,
    orig_var_mins: Vec<f64>,
    orig_var_maxs: Vec<f64>,
    orig_var_domains: Vec<VarDomain>,
    orig_constraints: CsMat,
    orig_rhs: Vec<f64>,
    row_scales: Vec<f64>,
    feasibility: f64,
    var_tols: Vec<BoundTols>,
    var_states: Vec<VarState>,
    basic_vars: Vec<usize>,
    basic_var_vals: Vec<f64>,
    nb_var_vals: Vec<f64>,
    widened: Vec<WidenedBound>,
}

impl Solver {
    /// 01: 0 if the widened list holds (var, up); else for a structural variable its tolerance toward that side; else
    /// `slack_room`.
    fn widening_room(&self, var: usize, up: bool) -> f64 {
        if self.widened.iter().any(|w| w.var == var && w.up == up) {
            0.0
        } else if var < self.num_vars {
            self.var_tols[var].toward(up)
        } else {
            self.slack_room(var - self.num_vars)
        }
    }

    /// 01: (slack_tol − slack_margin).max(0), both from tol = feasibility times scale, the magnitude of `row_activity`
    /// and `row_terms`.
    fn slack_room(&self, r: usize) -> f64 {
        let (_, magnitude) = self.row_activity(r, |v| self.internal_value(v));
        let (tol, terms) = (self.feasibility * self.row_scales[r], self.row_terms(r));
        (slack_tol(tol, magnitude, terms) - slack_margin(tol, magnitude, terms)).max(0.0)
    }

    fn bound(&self, var: usize, up: bool) -> f64 {
        if up { self.orig_var_maxs[var] } else { self.orig_var_mins[var] }
    }

    /// 01: a variable's low or high edge.
    fn edge(&self, leaving_row: usize, var: usize, up: bool) -> f64 {
        let bound = self.bound(var, up);
        if bound.is_infinite() {
            bound
        } else if var == self.basic_vars[leaving_row] {
            band_edge(bound, self.var_tols[var].toward(up), up)
        } else if self.holds_on_bounds(var) {
            bound
        } else {
            band_edge(bound, self.widening_room(var, up), up)
        }
    }

    pub fn of(sheet: &Sheet) -> Self {
        let count = sheet.structurals + sheet.rows;
        let mut solver = Solver {
            num_vars: sheet.structurals,
            orig_var_mins: sheet.mins.clone(),
            orig_var_maxs: sheet.maxs.clone(),
            orig_var_domains: sheet
                .integer
                .iter()
                .map(|&flag| if flag != 0 { VarDomain::Integer } else { VarDomain::Real })
                .collect(),
            orig_constraints: CsMat {
                starts: sheet.starts.clone(),
                columns: sheet.columns.clone(),
                entries: sheet.entries.clone(),
            },
            orig_rhs: sheet.right_sides.clone(),
            row_scales: sheet.scales.clone(),
            feasibility: sheet.feasibility,
            var_tols: (0..count)
                .map(|v| BoundTols { lo: sheet.low_tolerances[v], hi: sheet.high_tolerances[v] })
                .collect(),
            var_states: Vec::new(),
            basic_vars: vec![0; sheet.rows],
            basic_var_vals: vec![0.0; sheet.rows],
            nb_var_vals: Vec::new(),
            // the bound in the model is not read here
            widened: sheet.sides().into_iter().map(|(var, up)| WidenedBound { var, up, model: f64::NAN }).collect(),
        };
        for var in 0..count {
            if sheet.basic[var] != 0 {
                let place = sheet.places[var];
                solver.var_states.push(VarState::Basic(place));
                solver.basic_vars[place] = var;
                solver.basic_var_vals[place] = sheet.values[var];
            } else {
                solver.var_states.push(VarState::NonBasic(solver.nb_var_vals.len()));
                solver.nb_var_vals.push(sheet.values[var]);
            }
        }
        solver
    }
}

/// The multipliers of a sheet before their error is estimated.
pub struct Multipliers {
    refined: RefinedRow,
    checked: bool,
}

impl Multipliers {
    pub fn of(sheet: &Sheet) -> Self {
        Multipliers {
            refined: RefinedRow {
                rho: sheet.rho_hi.iter().zip(&sheet.rho_lo).map(|(&hi, &lo)| CDouble { hi, lo }).collect(),
                error: None,
                second: sheet.second.clone(),
            },
            checked: sheet.checked != 0,
        }
    }

    /// 01: when the sheet says checked, the errors are what `refinement_error` answers for rho and second correction.
    fn estimate(&mut self) {
        if self.checked {
            self.refined.error = refinement_error(&self.refined.rho, &self.refined.second);
        }
    }
}

/// The kept reckoning as the Rust has it, for the timing.
pub fn reckon(solver: &Solver, multipliers: &mut Multipliers, row: usize, leaving_up: bool) -> f64 {
    multipliers.estimate();
    let proof = solver.proof_of(&multipliers.refined, row, leaving_up);
    proof.gap + proof.allowance
}

/// The sums in place: x0 + x1 and x2, and x0 + x1 and the product of x2 + x3 with x4.
pub fn sums(x: [f64; 5]) -> [f64; 4] {
    let mut added = CDouble { hi: x[0], lo: x[1] };
    let mut scaled = added;
    added.add(x[2]);
    scaled.add_scaled(CDouble { hi: x[2], lo: x[3] }, x[4]);
    [added.hi, added.lo, scaled.hi, scaled.lo]
}

/// A row that the certificate keeps, with its multiplier y.
pub struct Kept {
    pub row: usize,
    pub high: f64,
    pub low: f64,
}

/// What the outward gap is reckoned from: the kept rows, ascending, and each variable's low and high edge, as document 01
/// says them in words over the functions above. The Rust has neither in one place.
pub fn combined(sheet: &Sheet) -> (Vec<Kept>, Vec<(f64, f64)>) {
    let solver = Solver::of(sheet);
    let mut multipliers = Multipliers::of(sheet);
    multipliers.estimate();
    let mut kept = Vec::new();
    for (row, rho) in multipliers.refined.rho.iter().enumerate() {
        let y = if sheet.leaving_up != 0 { rho.neg() } else { *rho }.normalized();
        let slack = sheet.structurals + row;
        let within_error = multipliers.refined.error.as_ref().is_some_and(|error| y.value().abs() <= error[row]);
        let side = if y.value() > 0.0 { sheet.maxs[slack] } else { sheet.mins[slack] };
        if !within_error && y.value() != 0.0 && !side.is_infinite() {
            kept.push(Kept { row, high: y.hi, low: y.lo });
        }
    }
    let edge = |var: usize, up: bool| solver.edge(sheet.leaving_row, var, up);
    (kept, (0..solver.num_total_vars()).map(|var| (edge(var, false), edge(var, true))).collect())
}

/// How much the Rust's product of two factors lacks of the promised one; less than 0 where it is too large.
pub fn lack(a: f64, b: f64) -> f64 {
    products::promised(a, b) - mul_up(a, b)
}

/// The same of the judgement's products together, of all variables as if the walk went through.
pub fn lacking(sheet: &Sheet) -> f64 {
    let solver = Solver::of(sheet);
    let mut multipliers = Multipliers::of(sheet);
    multipliers.estimate();
    let cert = solver.certificate(&multipliers.refined, sheet.leaving_up != 0);
    let of_variable = |var: usize| {
        let up = cert.coeff(var) > 0.0;
        let (bound, edge) = (solver.bound(var, up), solver.edge(sheet.leaving_row, var, up));
        if cert.coeff(var) == 0.0 || bound.is_infinite() {
            return 0.0;
        }
        lack(cert.coeffs[var].abs_up(), distance_up(edge, bound))
    };
    (0..solver.num_total_vars()).map(of_variable).sum()
}

/// How the walk over the variables ended, for the counts of outcomes.
#[derive(Clone, Copy, PartialEq, Debug)]
pub enum Walk {
    Through,
    Spoilt,
    Unlimited,
}

/// The Rust's answer to a sheet that no question refuses.
pub struct Answer {
    pub holds: bool,
    pub gap: f64,
    pub allowance: f64,
    pub cut: f64,
    pub zero_within_error: usize,
    pub multipliers_zeroed: usize,
    pub rows: usize,
    pub high: Vec<f64>,
    pub low: Vec<f64>,
    pub magnitudes: Vec<f64>,
    pub terms: Vec<u32>,
    pub errors: Option<Vec<f64>>,
    /// Within what a coefficient at an infinite bound counts as zero.
    pub errors_of_zero: Vec<f64>,
    pub beta_finite: bool,
    pub leaving: usize,
    pub walk: Walk,
}

pub fn answer(sheet: &Sheet) -> Answer {
    let solver = Solver::of(sheet);
    let mut multipliers = Multipliers::of(sheet);
    multipliers.estimate();
    let (refined, up) = (&multipliers.refined, sheet.leaving_up != 0);
    let proof = solver.proof_of(refined, sheet.leaving_row, up);
    let cert = solver.certificate(refined, up);
    let errors_of_zero: Vec<f64> = (0..solver.num_total_vars()).map(|var| cert.error_of_zero(var)).collect();
    // told from the certificate, since the proof keeps no more than the gap
    let mut walk = Walk::Through;
    for var in 0..solver.num_total_vars() {
        let p = cert.coeff(var);
        let bound = if p > 0.0 { sheet.maxs[var] } else { sheet.mins[var] };
        let infinite = p != 0.0 && bound.is_infinite();
        if p != 0.0 && !(p.is_finite() && cert.magnitudes[var].is_finite())
            || infinite && !errors_of_zero[var].is_finite()
        {
            walk = Walk::Spoilt;
            break;
        }
        if infinite && p.abs() > errors_of_zero[var] {
            walk = Walk::Unlimited;
            break;
        }
    }
    Answer {
        holds: proof.holds,
        gap: proof.gap,
        allowance: proof.allowance,
        cut: proof.cut,
        zero_within_error: proof.zero_within_error,
        multipliers_zeroed: proof.multipliers_zeroed,
        rows: cert.rows,
        high: cert.coeffs.iter().map(|c| c.hi).collect(),
        low: cert.coeffs.iter().map(|c| c.lo).collect(),
        magnitudes: cert.magnitudes,
        terms: cert.terms_of,
        errors: cert.errors,
        errors_of_zero,
        beta_finite: cert.beta.value().is_finite(),
        leaving: solver.basic_vars[sheet.leaving_row],
        walk,
    }
}
