//! A sample of texts with their answers, for a test that has no Rust, in one of two forms.
//!
//! Bytes as they are: a line `(case TEXT ANSWER)` with the bytes of the text and of the answer in five digits each, then
//! the text and then the answer. tests/texts/replay.py runs the program on these.
//!
//! Lines of a letter and eight numbers of 16 digits, as the other stored lists have them:
//!
//!     T text answer 0 0 0 0 0 0    how many bytes each has
//!     B x x x x x x x x            64 bytes of the text, eight to a number, the first the highest; 0 behind the end
//!     A x x x x x x x x            the same of the answer
use crate::answer::answer;
use crate::by_hand::EXAMPLE;
use crate::counts::Counts;
use crate::make;
use std::io::Write;

fn as_they_are(text: &[u8], answer: &[u8]) -> Vec<u8> {
    let head = format!("(case {:05} {:05})\n", text.len(), answer.len());
    [head.as_bytes(), text, answer].concat()
}

fn line(letter: char, numbers: &[u64]) -> String {
    let number = |at| format!(" {:016X}", numbers.get(at).unwrap_or(&0));
    format!("{letter}{}\n", (0..8).map(number).collect::<String>())
}

fn in_lines(text: &[u8], answer: &[u8]) -> Vec<u8> {
    let mut lines = line('T', &[text.len() as u64, answer.len() as u64]);
    for (letter, bytes) in [('B', text), ('A', answer)] {
        for part in bytes.chunks(64) {
            let word = |bytes: &[u8]| (0..8).fold(0, |n, at| n << 8 | *bytes.get(at).unwrap_or(&0) as u64);
            lines.push_str(&line(letter, &part.chunks(8).map(word).collect::<Vec<u64>>()));
        }
    }
    lines.into_bytes()
}

/// Prints so many texts, of few bytes each, after document 01's example. Half of them are accepted.
pub fn print(seed: u64, texts: usize, lines: bool) {
    let (form, longest): (fn(&[u8], &[u8]) -> Vec<u8>, _) = if lines { (in_lines, 400) } else { (as_they_are, 700) };
    let mut out = std::io::stdout().lock();
    let mut put = |text: &[u8]| out.write_all(&form(text, &answer(text).bytes)).expect("standard output");
    put(EXAMPLE.as_bytes());
    let mut met = [0; 13];
    let (mut stored, mut number) = (0, 0);
    while stored < texts {
        number += 1;
        let text = make::text(seed, number, &mut Counts::default());
        let refusal = answer(&text).refusal;
        let most = match refusal {
            0 => texts / 2,
            1 => texts / 4,
            3 | 4 => 0,
            _ => texts.div_ceil(32),
        };
        if text.len() <= longest && met[refusal] < most {
            met[refusal] += 1;
            stored += 1;
            put(&text);
        }
    }
}
