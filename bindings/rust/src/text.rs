//! A sheet in text, weighed to an answer in text.
use crate::raw::{call_weigh_text, RawProof, RawVerdict};
use crate::refusal::Refusal;
use crate::slices::refusal_of;
use crate::verdict::Verdict;
use crate::MOST_ANSWER;
use core::fmt;

/// The answer's text: nine lines, or one line `(refused 7)`.
#[derive(Clone, Copy)]
pub struct Answer {
    bytes: [u8; MOST_ANSWER],
    length: usize,
}

/// The verdict on a sheet in text, as the program `weigh` prints it. Allocates nothing.
pub fn weigh_text(text: &[u8]) -> Answer {
    let mut bytes = [0; MOST_ANSWER];
    let length = call_weigh_text(text, &mut bytes);
    Answer { bytes, length }
}

impl Answer {
    /// The text.
    pub fn as_str(&self) -> &str {
        let text = self.bytes.get(..self.length).and_then(|bytes| core::str::from_utf8(bytes).ok());
        text.expect("the archive's answers are short and of plain letters")
    }

    /// The text read back: the verdict's nine numbers, without the certificate's lists.
    ///
    /// # Errors
    ///
    /// The first question whose answer is no.
    pub fn verdict(&self) -> Result<Verdict<()>, Refusal> {
        let mut lines = self.as_str().lines();
        if let Some(number) = self.as_str().strip_prefix("(refused ") {
            return Err(refusal_of(number.trim_end().trim_end_matches(')').parse().unwrap_or(0)));
        }
        let read = RawVerdict {
            proof: RawProof {
                holds: flag(item(lines.next(), "holds")),
                gap: double(item(lines.next(), "gap")),
                allowance: double(item(lines.next(), "allowance")),
                cut: double(item(lines.next(), "cut")),
                zero_within_error: count(item(lines.next(), "zero-within-error")),
                multipliers_zeroed: count(item(lines.next(), "multipliers-zeroed")),
                rows: count(item(lines.next(), "rows")),
            },
            outward: double(item(lines.next(), "outward")),
            declined: flag(item(lines.next(), "declined")),
        };
        Ok(Verdict::new(read, ()))
    }
}

const OTHER: &str = "the archive answers in nine lines: this is not the archive that this crate is for";

/// What stands in the line `(name ...)`.
fn item<'a>(line: Option<&'a str>, name: &str) -> &'a str {
    line.and_then(|line| line.strip_prefix('(')?.strip_prefix(name)?.strip_prefix(' ')?.strip_suffix(')')).expect(OTHER)
}

fn flag(word: &str) -> u8 {
    match word {
        "yes" => 1,
        "no" => 0,
        _ => panic!("{OTHER}"),
    }
}

fn count(digits: &str) -> usize {
    digits.parse().expect(OTHER)
}

fn double(digits: &str) -> f64 {
    f64::from_bits(u64::from_str_radix(digits, 16).expect(OTHER))
}

impl fmt::Display for Answer {
    fn fmt(&self, f: &mut fmt::Formatter<'_>) -> fmt::Result {
        f.write_str(self.as_str())
    }
}

impl fmt::Debug for Answer {
    fn fmt(&self, f: &mut fmt::Formatter<'_>) -> fmt::Result {
        write!(f, "Answer({:?})", self.as_str())
    }
}
