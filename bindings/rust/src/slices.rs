//! A sheet in the caller's slices, weighed into the caller's buffers.
use crate::raw::call_sheet_verdict;
use crate::refusal::Refusal;
use crate::verdict::{CertificateRef, Verdict};
use crate::MOST_VARIABLES;

/// An item of the widened list: the solver widened this side of this variable.
#[repr(C)]
#[derive(Clone, Copy, Debug)]
pub struct Widened {
    /// The variable; a row's slack has the number structural count + row.
    pub variable: usize,
    /// A flag, set for the upper side: any byte but 0 sets it.
    pub up: u8,
}

/// A sheet in slices, as the archive reads it. With n = `structurals` + `rows`, the variables are 0 to n − 1: the
/// structural ones first, then each row's slack. Any content and any lengths may be lent; a question refuses what does not
/// fit. A flag is set unless 0.
#[derive(Clone, Copy, Debug)]
pub struct Slices<'a> {
    /// The row count.
    pub rows: usize,
    /// The count of structural variables.
    pub structurals: usize,
    /// The count of entries, the slacks' among them.
    pub entry_count: usize,
    /// The absolute tolerance of the solver's user.
    pub feasibility: f64,
    /// Whether the multipliers come with second corrections.
    pub checked: bool,
    /// The basis place of the variable that leaves.
    pub leaving_row: usize,
    /// Whether that variable goes up.
    pub leaving_up: bool,
    /// Where each row's entries begin, and where the last row's end: `rows` + 1 places.
    pub starts: &'a [usize],
    /// The variable of each entry; a row's own slack comes last.
    pub columns: &'a [usize],
    /// The entries.
    pub entries: &'a [f64],
    /// The rows' right sides.
    pub right_sides: &'a [f64],
    /// The rows' scales.
    pub scales: &'a [f64],
    /// A flag for each structural variable: its domain is integer.
    pub integer: &'a [u8],
    /// The lower bounds: n places, as have the six lists that follow.
    pub mins: &'a [f64],
    /// The upper bounds.
    pub maxs: &'a [f64],
    /// The tolerances toward the lower bounds.
    pub low_tolerances: &'a [f64],
    /// The tolerances toward the upper bounds.
    pub high_tolerances: &'a [f64],
    /// A flag: the variable is in the basis.
    pub basic: &'a [u8],
    /// The basis place of each variable in the basis; others' are not read.
    pub places: &'a [usize],
    /// The values.
    pub values: &'a [f64],
    /// The widened items.
    pub widened: &'a [Widened],
    /// The high parts of the rows' multipliers.
    pub rho_hi: &'a [f64],
    /// The low parts.
    pub rho_lo: &'a [f64],
    /// The multipliers' second corrections; a place for each row also when unchecked.
    pub second: &'a [f64],
}

/// The lists that a verdict is written to. Each needs a place for each variable and may have more; places beyond stay as
/// they were, and so does everything where the sheet is refused.
#[derive(Debug)]
pub struct Lists<'a> {
    /// For the high parts of the coefficients.
    pub high: &'a mut [f64],
    /// For the low parts.
    pub low: &'a mut [f64],
    /// For the magnitudes.
    pub magnitudes: &'a mut [f64],
    /// For the counts of terms.
    pub terms: &'a mut [u32],
    /// For the errors; left as they were where there are none.
    pub errors: &'a mut [f64],
}

/// Lists that are long enough for every sheet: about 14 KiB, to be kept wherever the firmware has room.
#[derive(Clone, Debug)]
pub struct Buffers {
    high: [f64; MOST_VARIABLES],
    low: [f64; MOST_VARIABLES],
    magnitudes: [f64; MOST_VARIABLES],
    terms: [u32; MOST_VARIABLES],
    errors: [f64; MOST_VARIABLES],
}

impl Buffers {
    /// Buffers that hold zeros. No verdict depends on what they hold.
    pub const fn new() -> Self {
        Buffers {
            high: [0.0; MOST_VARIABLES],
            low: [0.0; MOST_VARIABLES],
            magnitudes: [0.0; MOST_VARIABLES],
            terms: [0; MOST_VARIABLES],
            errors: [0.0; MOST_VARIABLES],
        }
    }

    /// These buffers, lent for a call.
    pub fn lists(&mut self) -> Lists<'_> {
        Lists {
            high: &mut self.high,
            low: &mut self.low,
            magnitudes: &mut self.magnitudes,
            terms: &mut self.terms,
            errors: &mut self.errors,
        }
    }
}

impl Default for Buffers {
    fn default() -> Self {
        Buffers::new()
    }
}

/// No error is below 0, so this one was not written.
const NOT_WRITTEN: f64 = -1.0;

/// The verdict on a sheet in slices, its certificate in the lists lent. Allocates nothing.
///
/// # Errors
///
/// The first question whose answer is no; every place of the lists is then as it was.
pub fn weigh_into<'a>(sheet: &Slices<'_>, mut lists: Lists<'a>) -> Result<Verdict<CertificateRef<'a>>, Refusal> {
    // the archive does not say whether it wrote errors: it writes them for all variables or for none, so the first tells
    let first_error = lists.errors.first().copied();
    if let Some(first) = lists.errors.first_mut() {
        *first = NOT_WRITTEN;
    }
    let answer = call_sheet_verdict(sheet, &mut lists);
    let written = lists.errors.first().is_some_and(|first| *first != NOT_WRITTEN);
    if let (Some(first), Some(before), false) = (lists.errors.first_mut(), first_error, written) {
        *first = before;
    }
    if answer.refusal != 0 {
        return Err(refusal_of(answer.refusal));
    }
    let count = sheet.structurals + sheet.rows;
    let Lists { high, low, magnitudes, terms, errors } = lists;
    let certificate = CertificateRef {
        high: &high[..count],
        low: &low[..count],
        magnitudes: &magnitudes[..count],
        terms: &terms[..count],
        errors: written.then_some(&errors[..count]),
    };
    Ok(Verdict::new(answer.verdict, certificate))
}

/// The refusal that the archive's number stands for.
pub(crate) fn refusal_of(number: u32) -> Refusal {
    match Refusal::from_number(number) {
        Some(refusal) => refusal,
        None => panic!("the archive has no refusal {number}: this is not the archive that this crate is for"),
    }
}
