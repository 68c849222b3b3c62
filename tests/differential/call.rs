//! What is lent for a call, and the call.
use crate::lent::{Item, Lending, Lent};
use crate::library::{Answer, Read, weigh};
use crate::sheet::{FILL, FILL_TERMS, Sheet, Widened};

impl Item for Widened {
    const GUARD: Widened = Widened { variable: usize::GUARD, up: u8::GUARD, behind: [u8::GUARD; 7] };
    fn bits(self) -> u128 {
        let [a, b, c, d, e, f, g] = self.behind;
        (self.variable as u128) << 64 | u64::from_le_bytes([self.up, a, b, c, d, e, f, g]) as u128
    }
}

/// What is lent for a sheet: copies of its slices, and outputs.
pub struct Call {
    /// High and low parts, magnitudes, errors.
    pub outputs: [Lent<f64>; 4],
    pub terms: Lent<u32>,
    doubles: [Lent<f64>; 11],
    counts: [Lent<usize>; 3],
    flags: [Lent<u8>; 2],
    widened: Lent<Widened>,
}

impl Call {
    pub fn of(sheet: &Sheet, how: Lending) -> Self {
        let [high, low, magnitudes, terms, errors] = sheet.outputs;
        let filled = |length| Lent::of(&vec![f64::from_bits(FILL); length], how);
        Call {
            outputs: [high, low, magnitudes, errors].map(filled),
            terms: Lent::of(&vec![FILL_TERMS; terms], how),
            doubles: sheet.doubles().map(|list| Lent::of(list, how)),
            counts: sheet.counts().map(|list| Lent::of(list, how)),
            flags: sheet.flags().map(|list| Lent::of(list, how)),
            widened: Lent::of(&sheet.widened, how),
        }
    }

    /// Whether everything lent to be read is as it was, and nothing was written round the outputs.
    pub fn is_clean(&self, sheet: &Sheet) -> bool {
        self.outputs.iter().all(Lent::guards_stand)
            && self.terms.guards_stand()
            && self.doubles.iter().zip(sheet.doubles()).all(|(lent, list)| lent.is_still(list))
            && self.counts.iter().zip(sheet.counts()).all(|(lent, list)| lent.is_still(list))
            && self.flags.iter().zip(sheet.flags()).all(|(lent, list)| lent.is_still(list))
            && self.widened.is_still(&sheet.widened)
    }

    pub fn run(&mut self, sheet: &Sheet) -> Answer {
        let read = Read {
            doubles: self.doubles.each_ref().map(Lent::items),
            counts: self.counts.each_ref().map(Lent::items),
            flags: self.flags.each_ref().map(Lent::items),
            widened: self.widened.items(),
        };
        // SAFETY: these places are the call's own
        unsafe { weigh(sheet, &read, self.outputs.each_mut().map(Lent::to_write), self.terms.to_write()) }
    }
}
