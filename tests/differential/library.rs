//! The library's function that weighs a sheet, and its sums in place.
use crate::sheet::{Sheet, Widened};

/// As the crates have them, but that a flag is a byte here, so that any byte can be looked at.
#[repr(C)]
#[derive(Clone, Copy)]
pub struct Proof {
    pub holds: u8,
    pub gap: f64,
    pub allowance: f64,
    pub cut: f64,
    pub zero_within_error: usize,
    pub multipliers_zeroed: usize,
    pub rows: usize,
}

#[repr(C)]
#[derive(Clone, Copy)]
pub struct Verdict {
    pub proof: Proof,
    pub outward: f64,
    pub declined: u8,
}

#[repr(C)]
#[derive(Clone, Copy)]
pub struct Answer {
    pub refusal: u32,
    pub verdict: Verdict,
}

// each slice is two arguments, where it begins and its length
#[rustfmt::skip]
unsafe extern "C" {
    fn sheet_verdict(
        widened: *const Widened, widened_length: usize,
        rows: usize, structurals: usize, entry_count: usize,
        feasibility: f64,
        checked: u8,
        leaving_row: usize,
        leaving_up: u8,
        high: *mut f64, high_length: usize,
        low: *mut f64, low_length: usize,
        magnitudes: *mut f64, magnitudes_length: usize,
        terms: *mut u32, terms_length: usize,
        errors: *mut f64, errors_length: usize,
        starts: *const usize, starts_length: usize,
        columns: *const usize, columns_length: usize,
        entries: *const f64, entries_length: usize,
        right_sides: *const f64, right_sides_length: usize,
        scales: *const f64, scales_length: usize,
        integer: *const u8, integer_length: usize,
        mins: *const f64, mins_length: usize,
        maxs: *const f64, maxs_length: usize,
        low_tolerances: *const f64, low_tolerances_length: usize,
        high_tolerances: *const f64, high_tolerances_length: usize,
        basic: *const u8, basic_length: usize,
        places: *const usize, places_length: usize,
        values: *const f64, values_length: usize,
        rho_hi: *const f64, rho_hi_length: usize,
        rho_lo: *const f64, rho_lo_length: usize,
        second: *const f64, second_length: usize,
    ) -> Answer;
}

/// The slices that a call reads, in the order of the sheet's own.
pub struct Read<'a> {
    pub doubles: [&'a [f64]; 11],
    pub counts: [&'a [usize]; 3],
    pub flags: [&'a [u8]; 2],
    pub widened: &'a [Widened],
}

/// Where a slice that is written to begins, and its length.
pub type Written<T> = (*mut T, usize);

/// Calls the function with the sheet's numbers and with slices. The outputs are high and low parts, magnitudes, errors.
///
/// # Safety
///
/// What is written to lives through the call and is not shared.
#[rustfmt::skip]
pub unsafe fn weigh(sheet: &Sheet, read: &Read<'_>, outputs: [Written<f64>; 4], terms: Written<u32>) -> Answer {
    let [high, low, magnitudes, errors] = outputs;
    let [entries, right_sides, scales, mins, maxs, low_tolerances, high_tolerances, values, rho_hi, rho_lo, second]
        = read.doubles;
    let [starts, columns, places] = read.counts;
    let [integer, basic] = read.flags;
    // SAFETY: every pair is a slice that lives through the call, those written to are not shared
    unsafe {
        sheet_verdict(
            read.widened.as_ptr(), read.widened.len(),
            sheet.rows, sheet.structurals, sheet.entry_count,
            sheet.feasibility,
            sheet.checked,
            sheet.leaving_row,
            sheet.leaving_up,
            high.0, high.1,
            low.0, low.1,
            magnitudes.0, magnitudes.1,
            terms.0, terms.1,
            errors.0, errors.1,
            starts.as_ptr(), starts.len(),
            columns.as_ptr(), columns.len(),
            entries.as_ptr(), entries.len(),
            right_sides.as_ptr(), right_sides.len(),
            scales.as_ptr(), scales.len(),
            integer.as_ptr(), integer.len(),
            mins.as_ptr(), mins.len(),
            maxs.as_ptr(), maxs.len(),
            low_tolerances.as_ptr(), low_tolerances.len(),
            high_tolerances.as_ptr(), high_tolerances.len(),
            basic.as_ptr(), basic.len(),
            places.as_ptr(), places.len(),
            values.as_ptr(), values.len(),
            rho_hi.as_ptr(), rho_hi.len(),
            rho_lo.as_ptr(), rho_lo.len(),
            second.as_ptr(), second.len(),
        )
    }
}

/// The sums in place: x0 + x1 and x2, and x0 + x1 and the product of x2 + x3 with x4.
pub fn sums(x: [f64; 5]) -> [f64; 4] {
    #[repr(C)]
    #[derive(Clone, Copy)]
    struct CDouble {
        hi: f64,
        lo: f64,
    }
    unsafe extern "C" {
        safe fn cdouble_add(p: &mut CDouble, v: f64);
        safe fn cdouble_add_scaled(p: &mut CDouble, c: CDouble, b: f64);
    }
    let mut added = CDouble { hi: x[0], lo: x[1] };
    let mut scaled = added;
    cdouble_add(&mut added, x[2]);
    cdouble_add_scaled(&mut scaled, CDouble { hi: x[2], lo: x[3] }, x[4]);
    [added.hi, added.lo, scaled.hi, scaled.lo]
}
