//! The full verdict, on a sheet's own lists.
use crate::library::{Answer, Read, weigh};
use crate::sheet::Sheet;

/// The outputs that are lent beside the sheet's lists.
pub struct Lent {
    doubles: [Vec<f64>; 4],
    terms: Vec<u32>,
}

impl Lent {
    pub fn of(sheet: &Sheet) -> Self {
        let [high, low, magnitudes, terms, errors] = sheet.outputs;
        let doubles = [high, low, magnitudes, errors].map(|length| vec![0.0; length]);
        Lent { doubles, terms: vec![0; terms] }
    }

    pub fn verdict(&mut self, sheet: &Sheet) -> Answer {
        let read = Read {
            doubles: sheet.doubles().map(Vec::as_slice),
            counts: sheet.counts().map(Vec::as_slice),
            flags: sheet.flags().map(Vec::as_slice),
            widened: &sheet.widened,
        };
        let outputs = self.doubles.each_mut().map(|list| (list.as_mut_ptr(), list.len()));
        let terms = (self.terms.as_mut_ptr(), self.terms.len());
        // SAFETY: these places are the call's own
        unsafe { weigh(sheet, &read, outputs, terms) }
    }
}
