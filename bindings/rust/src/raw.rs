//! The archive's functions as they are, and the only unsafe code of the crate.
use crate::cdouble::CDouble;
use crate::slices::{Lists, Slices, Widened};

/// The kept numbers. A flag is a byte here, so that nothing is assumed of it.
#[repr(C)]
#[derive(Clone, Copy)]
pub struct RawProof {
    pub holds: u8,
    pub gap: f64,
    pub allowance: f64,
    pub cut: f64,
    pub zero_within_error: usize,
    pub multipliers_zeroed: usize,
    pub rows: usize,
}

/// The verdict on an accepted sheet.
#[repr(C)]
#[derive(Clone, Copy)]
pub struct RawVerdict {
    pub proof: RawProof,
    pub outward: f64,
    pub declined: u8,
}

/// The answer of `sheet_verdict`.
#[repr(C)]
#[derive(Clone, Copy)]
pub struct RawAnswer {
    pub refusal: u32,
    pub verdict: RawVerdict,
}

// the layout that the archive was made for
const _: () = assert!(size_of::<RawAnswer>() == 80 && size_of::<usize>() == 8);
const _: () = assert!(size_of::<Widened>() == 16 && size_of::<CDouble>() == 16);

// each slice is two arguments, where it begins and its length
#[rustfmt::skip]
unsafe extern "C" {
    fn sheet_verdict(
        widened: *const Widened, widened_length: usize,
        rows: usize, structurals: usize, entry_count: usize,
        feasibility: f64,
        checked: u8,
        leaving_row: usize,
        leaving_up: u8,
        high: *mut f64, high_length: usize,
        low: *mut f64, low_length: usize,
        magnitudes: *mut f64, magnitudes_length: usize,
        terms: *mut u32, terms_length: usize,
        errors: *mut f64, errors_length: usize,
        starts: *const usize, starts_length: usize,
        columns: *const usize, columns_length: usize,
        entries: *const f64, entries_length: usize,
        right_sides: *const f64, right_sides_length: usize,
        scales: *const f64, scales_length: usize,
        integer: *const u8, integer_length: usize,
        mins: *const f64, mins_length: usize,
        maxs: *const f64, maxs_length: usize,
        low_tolerances: *const f64, low_tolerances_length: usize,
        high_tolerances: *const f64, high_tolerances_length: usize,
        basic: *const u8, basic_length: usize,
        places: *const usize, places_length: usize,
        values: *const f64, values_length: usize,
        rho_hi: *const f64, rho_hi_length: usize,
        rho_lo: *const f64, rho_lo_length: usize,
        second: *const f64, second_length: usize,
    ) -> RawAnswer;

    fn weigh_text(text: *const u8, text_length: usize, out: *mut u8, out_length: usize) -> usize;

    fn cdouble_add(p: *mut CDouble, v: f64);

    fn cdouble_add_scaled(p: *mut CDouble, c: CDouble, b: f64);
}

#[rustfmt::skip]
pub fn call_sheet_verdict(sheet: &Slices<'_>, lists: &mut Lists<'_>) -> RawAnswer {
    // SAFETY: every pair is a slice that lives through the call; those written to are borrowed for it alone, and the
    // function reads and writes within the lengths for every input
    unsafe {
        sheet_verdict(
            sheet.widened.as_ptr(), sheet.widened.len(),
            sheet.rows, sheet.structurals, sheet.entry_count,
            sheet.feasibility,
            u8::from(sheet.checked),
            sheet.leaving_row,
            u8::from(sheet.leaving_up),
            lists.high.as_mut_ptr(), lists.high.len(),
            lists.low.as_mut_ptr(), lists.low.len(),
            lists.magnitudes.as_mut_ptr(), lists.magnitudes.len(),
            lists.terms.as_mut_ptr(), lists.terms.len(),
            lists.errors.as_mut_ptr(), lists.errors.len(),
            sheet.starts.as_ptr(), sheet.starts.len(),
            sheet.columns.as_ptr(), sheet.columns.len(),
            sheet.entries.as_ptr(), sheet.entries.len(),
            sheet.right_sides.as_ptr(), sheet.right_sides.len(),
            sheet.scales.as_ptr(), sheet.scales.len(),
            sheet.integer.as_ptr(), sheet.integer.len(),
            sheet.mins.as_ptr(), sheet.mins.len(),
            sheet.maxs.as_ptr(), sheet.maxs.len(),
            sheet.low_tolerances.as_ptr(), sheet.low_tolerances.len(),
            sheet.high_tolerances.as_ptr(), sheet.high_tolerances.len(),
            sheet.basic.as_ptr(), sheet.basic.len(),
            sheet.places.as_ptr(), sheet.places.len(),
            sheet.values.as_ptr(), sheet.values.len(),
            sheet.rho_hi.as_ptr(), sheet.rho_hi.len(),
            sheet.rho_lo.as_ptr(), sheet.rho_lo.len(),
            sheet.second.as_ptr(), sheet.second.len(),
        )
    }
}

pub fn call_weigh_text(text: &[u8], out: &mut [u8]) -> usize {
    // SAFETY: as above
    unsafe { weigh_text(text.as_ptr(), text.len(), out.as_mut_ptr(), out.len()) }
}

pub fn call_cdouble_add(p: &mut CDouble, v: f64) {
    // SAFETY: the sum is borrowed for the call alone
    unsafe { cdouble_add(p, v) }
}

pub fn call_cdouble_add_scaled(p: &mut CDouble, c: CDouble, b: f64) {
    // SAFETY: as above
    unsafe { cdouble_add_scaled(p, c, b) }
}
