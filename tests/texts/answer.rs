//! What `weigh` is to print for a text, whatever its bytes. Where a product of the sheet differs from the promised one
//! (document 02, request 5) the kept numbers are those of the Rust whose products are the promised ones.
use crate::expected::{Weighed, outward, pattern, weighed};
use crate::form;

pub struct Answer {
    /// The refusal's number, 0 where there is a verdict.
    pub refusal: usize,
    pub bytes: Vec<u8>,
    /// Whether a product that the unmodified Rust takes is not the promised one.
    pub noted: bool,
}

fn refused(refusal: usize) -> Answer {
    Answer { refusal, bytes: format!("(refused {refusal})\n").into_bytes(), noted: false }
}

pub fn answer(text: &[u8]) -> Answer {
    let Some(sheet) = form::read(text) else {
        return refused(1);
    };
    let refusal = sheet.first_no() as usize;
    if refusal != 0 {
        return refused(refusal);
    }
    let Weighed { answer: kept, noted, turned: _ } = weighed(&sheet);
    let outward = outward(&sheet, &kept);
    let word = |yes: bool| if yes { "yes" } else { "no" };
    let mut lines = String::new();
    let mut line = |name: &str, value: String| lines.push_str(&format!("({name} {value})\n"));
    line("holds", word(kept.holds).to_string());
    line("gap", format!("{:016X}", pattern(kept.gap)));
    line("allowance", format!("{:016X}", pattern(kept.allowance)));
    line("cut", format!("{:016X}", pattern(kept.cut)));
    line("zero-within-error", kept.zero_within_error.to_string());
    line("multipliers-zeroed", kept.multipliers_zeroed.to_string());
    line("rows", kept.rows.to_string());
    line("outward", format!("{:016X}", pattern(outward.gap)));
    line("declined", word(outward.declined).to_string());
    Answer { refusal: 0, bytes: lines.into_bytes(), noted }
}
