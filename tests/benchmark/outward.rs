//! The outward gap in C (outward.c).
use crate::sheet::{Sheet, Widened};

#[rustfmt::skip]
unsafe extern "C" {
    fn outward_in_c(
        rows: usize, structurals: usize,
        feasibility: f64,
        checked: u8,
        leaving_row: usize,
        leaving_up: u8,
        starts: *const usize, columns: *const usize, entries: *const f64,
        right_sides: *const f64, scales: *const f64,
        integer: *const u8,
        mins: *const f64, maxs: *const f64, low_tolerances: *const f64, high_tolerances: *const f64,
        basic: *const u8, places: *const usize, values: *const f64,
        widened: *const Widened, widened_count: usize,
        rho_hi: *const f64, rho_lo: *const f64, second: *const f64,
    ) -> f64;
}

/// Of a sheet that no question refuses.
#[rustfmt::skip]
pub fn outward(sheet: &Sheet) -> f64 {
    // SAFETY: the slices live through the call and have the lengths that the sheet's numbers say, since no question refuses it
    unsafe {
        outward_in_c(
            sheet.rows, sheet.structurals,
            sheet.feasibility,
            sheet.checked,
            sheet.leaving_row,
            sheet.leaving_up,
            sheet.starts.as_ptr(), sheet.columns.as_ptr(), sheet.entries.as_ptr(),
            sheet.right_sides.as_ptr(), sheet.scales.as_ptr(),
            sheet.integer.as_ptr(),
            sheet.mins.as_ptr(), sheet.maxs.as_ptr(), sheet.low_tolerances.as_ptr(), sheet.high_tolerances.as_ptr(),
            sheet.basic.as_ptr(), sheet.places.as_ptr(), sheet.values.as_ptr(),
            sheet.widened.as_ptr(), sheet.widened.len(),
            sheet.rho_hi.as_ptr(), sheet.rho_lo.as_ptr(), sheet.second.as_ptr(),
        )
    }
}
