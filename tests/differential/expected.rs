//! What is to come of a sheet: the first question that refuses it, or the Rust's kept numbers with the outward gap.
//! Where a product of the sheet differs from the promised one (document 02, request 5) the kept numbers are those of
//! the same Rust whose products are the promised ones.
use crate::outward::Reckoning;
use crate::products::{noting, promising};
use crate::rust::{self, Answer};
use crate::sheet::{FILL, FILL_TERMS, Sheet};

/// The bits of a double, a NaN counted as one.
pub fn pattern(x: f64) -> u64 {
    if x.is_nan() { 0x7FF8_0000_0000_0000 } else { x.to_bits() }
}

/// What an output holds before the call.
pub fn fill(list: usize) -> u64 {
    if list == 3 { FILL_TERMS as u64 } else { FILL }
}

/// What is to come of a sheet that no question refuses.
pub struct Weighed {
    pub answer: Answer,
    /// Whether a product that the unmodified Rust takes is not the promised one.
    pub noted: bool,
    /// Whether `holds` of the unmodified Rust is not that of the answer.
    pub turned: bool,
}

/// The factors of a product depend on no other product, so one run of the unmodified Rust says whether one differs.
pub fn weighed(sheet: &Sheet) -> Weighed {
    let (unmodified, noted) = noting(|| rust::answer(sheet));
    if !noted {
        return Weighed { answer: unmodified, noted, turned: false };
    }
    let answer = promising(|| rust::answer(sheet));
    let turned = answer.holds != unmodified.holds;
    Weighed { answer, noted, turned }
}

/// The first eight numbers of the answer, the outputs, and, on an accepted sheet, the answer.
pub struct Expected {
    pub kept: [u64; 8],
    pub lists: [Vec<u64>; 5],
    pub answer: Option<Answer>,
    pub noted: bool,
    pub turned: bool,
}

pub fn expected(sheet: &Sheet) -> Expected {
    expected_by(sheet, weighed)
}

/// The same by the unmodified Rust, whatever its products.
pub fn unmodified(sheet: &Sheet) -> Expected {
    expected_by(sheet, |sheet| Weighed { answer: rust::answer(sheet), noted: false, turned: false })
}

fn expected_by(sheet: &Sheet, weighed: impl FnOnce(&Sheet) -> Weighed) -> Expected {
    let mut lists = [0, 1, 2, 3, 4].map(|list| vec![fill(list); sheet.outputs[list]]);
    let refusal = sheet.first_no();
    if refusal != 0 {
        let kept = [refusal as u64, 0, 0, 0, 0, 0, 0, 0];
        return Expected { kept, lists, answer: None, noted: false, turned: false };
    }
    let Weighed { answer, noted, turned } = weighed(sheet);
    let doubles = [&answer.high, &answer.low, &answer.magnitudes];
    for (list, doubles) in lists.iter_mut().zip(doubles) {
        for (place, &x) in list.iter_mut().zip(doubles) {
            *place = pattern(x);
        }
    }
    for (place, &n) in lists[3].iter_mut().zip(&answer.terms) {
        *place = n as u64;
    }
    for (place, &x) in lists[4].iter_mut().zip(answer.errors.iter().flatten()) {
        *place = pattern(x);
    }
    let kept = [
        0,
        answer.holds as u64,
        pattern(answer.gap),
        pattern(answer.allowance),
        pattern(answer.cut),
        answer.zero_within_error as u64,
        answer.multipliers_zeroed as u64,
        answer.rows as u64,
    ];
    Expected { kept, lists, answer: Some(answer), noted, turned }
}

/// The last two numbers of the answer, and what the outward gap was reckoned from.
pub struct Outward<'a> {
    pub gap: f64,
    /// Document 01: "Declined exactly when `holds` is true and the outward gap is above 0."
    pub declined: bool,
    pub reckoning: Reckoning<'a>,
}

/// Of a sheet that no question refuses.
pub fn outward<'a>(sheet: &'a Sheet, answer: &Answer) -> Outward<'a> {
    let reckoning = Reckoning::of(sheet);
    assert_eq!(reckoning.rows(), answer.rows, "the rows that are kept here and in the Rust");
    let gap = reckoning.outward();
    Outward { gap, declined: answer.holds && gap > 0.0, reckoning }
}
