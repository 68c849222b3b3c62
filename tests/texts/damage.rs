//! Damage to a text, each kind with its name. What is to be damaged may be missing; then the text stays as it is.
use crate::generate::Rng;

type Damage = fn(&mut Rng, &mut Vec<u8>);

pub const KINDS: [(&str, Damage); 30] = [
    ("a byte changed", |rng, text| replace(rng, text, |rng, _| vec![rng.next() as u8])),
    ("a byte changed to one that sheets have", |rng, text| replace(rng, text, |rng, _| vec![rng.pick(ALPHABET)])),
    ("a bit of a byte turned", |rng, text| replace(rng, text, |rng, byte| vec![byte ^ 1 << rng.below(8)])),
    ("a byte left out", |rng, text| replace(rng, text, |_, _| Vec::new())),
    ("a byte doubled", |rng, text| replace(rng, text, |_, byte| vec![byte, byte])),
    ("a byte put in", |rng, text| replace(rng, text, |rng, byte| vec![rng.next() as u8, byte])),
    ("a byte that sheets have put in", |rng, text| replace(rng, text, |rng, byte| vec![rng.pick(ALPHABET), byte])),
    ("cut somewhere", |rng, text| text.truncate(rng.below(text.len() + 1))),
    ("the front cut off", |rng, text| drop(text.drain(..rng.below(text.len() + 1)))),
    ("without the last newline", |_, text| text.truncate(text.len().saturating_sub(1))),
    ("the text twice", |_, text| text.extend_from_within(..)),
    ("bytes after the end", |rng, text| text.extend_from_slice(rng.pick(BEHIND))),
    ("cut after a line", |rng, text| on_lines(rng, text, |rng, lines| lines.truncate(rng.below(lines.len())))),
    ("a line doubled", |rng, text| on_lines(rng, text, double_a_line)),
    ("neighbouring lines swapped", |rng, text| on_lines(rng, text, swap_neighbours)),
    ("any two lines swapped", |rng, text| on_lines(rng, text, swap_any)),
    ("a line left out", |rng, text| on_lines(rng, text, |rng, lines| drop(lines.remove(rng.below(lines.len()))))),
    ("an empty line put in", |rng, text| on_lines(rng, text, put_in_an_empty_line)),
    ("a count of the sheet line off by one", sheet_line_off_by_one),
    ("another count off by one", |rng, text| on_number(rng, text, 5, off_by_one)),
    ("a number with too many digits", |rng, text| on_number(rng, text, 16, too_many_digits)),
    ("a number without digits", |rng, text| on_number(rng, text, 16, |_, _| Vec::new())),
    ("a number of special bits", |rng, text| on_number(rng, text, 16, |rng, _| rng.pick(SPECIAL).to_vec())),
    ("a digit changed", |rng, text| on_number(rng, text, 16, change_a_digit)),
    ("digits in lower case", |rng, text| on_number(rng, text, 16, |_, digits| digits.to_ascii_lowercase())),
    ("two spaces", |rng, text| instead_of(rng, text, b" ", b"  ")),
    ("a tab", |rng, text| instead_of(rng, text, b" ", b"\t")),
    ("a space before a bracket", |rng, text| instead_of(rng, text, b")", b" )")),
    ("CR before a newline", |rng, text| instead_of(rng, text, b"\n", b"\r\n")),
    ("another word", |rng, text| {
        let (from, to) = rng.pick(WORDS);
        instead_of(rng, text, from, to);
    }),
];

const ALPHABET: &[u8] = b"()\n 0123456789ABCDEFabcdeilnrsuvwx";

#[rustfmt::skip]
const SPECIAL: &[&[u8]] = &[
    b"7FF0000000000000", b"FFF0000000000000", b"7FF8000000000000", b"7FF0000000000001", b"FFFFFFFFFFFFFFFF",
    b"8000000000000000", b"BFF0000000000000", b"3FF0000000000000", b"7FEFFFFFFFFFFFFF", b"0", b"1",
];

#[rustfmt::skip]
const BEHIND: &[&[u8]] = &[
    b" ", b"\n", b"\0", b"(", b"(widened 0 up)\n", b"(rho 0 0)\n", b"(leave 0 down)\n", b"\xFF\xFE",
];

#[rustfmt::skip]
const WORDS: &[(&[u8], &[u8])] = &[
    (b"(nonbasic", b"(basic"), (b"(basic", b"(nonbasic"), (b"(basic", b"(basic 0"), (b"up", b"down"), (b"down", b"up"),
    (b"unchecked", b"checked"), (b" checked", b" unchecked"), (b"var i", b"var r"), (b"var r", b"var i"),
    (b"var r", b"var b"), (b"(var ", b"(slack "), (b"(slack", b"(var r"), (b"sheet", b"Sheet"), (b"down", b"DOWN"),
    (b"(rho ", b"(rho -"), (b"(row ", b"(row 0x"), (b"(feasibility ", b"(feasibility +"), (b"(widened", b"(wider"),
    (b"leave", b"leaves"), (b"(multipliers", b"(widened 0 down)\n(multipliers"),
];

/// Other bytes, or none, in the place of one.
fn replace(rng: &mut Rng, text: &mut Vec<u8>, with: fn(&mut Rng, u8) -> Vec<u8>) {
    if !text.is_empty() {
        let at = rng.below(text.len());
        let bytes = with(rng, text[at]);
        text.splice(at..at + 1, bytes);
    }
}

/// Other bytes in the place of one occurrence of some.
fn instead_of(rng: &mut Rng, text: &mut Vec<u8>, from: &[u8], to: &[u8]) {
    let found: Vec<usize> = (0..text.len()).filter(|&at| text[at..].starts_with(from)).collect();
    if !found.is_empty() {
        let at = rng.pick(&found);
        text.splice(at..at + from.len(), to.iter().copied());
    }
}

/// A change to the text's lines, each with its newline.
fn on_lines(rng: &mut Rng, text: &mut Vec<u8>, change: fn(&mut Rng, &mut Vec<Vec<u8>>)) {
    let mut lines: Vec<Vec<u8>> = text.split_inclusive(|&byte| byte == b'\n').map(|line| line.to_vec()).collect();
    if !lines.is_empty() {
        change(rng, &mut lines);
        *text = lines.concat();
    }
}

fn double_a_line(rng: &mut Rng, lines: &mut Vec<Vec<u8>>) {
    let at = rng.below(lines.len());
    lines.insert(at, lines[at].clone());
}

fn swap_neighbours(rng: &mut Rng, lines: &mut Vec<Vec<u8>>) {
    let at = rng.below(lines.len());
    let other = (at + 1) % lines.len();
    lines.swap(at, other);
}

fn swap_any(rng: &mut Rng, lines: &mut Vec<Vec<u8>>) {
    let (a, b) = (rng.below(lines.len()), rng.below(lines.len()));
    lines.swap(a, b);
}

fn put_in_an_empty_line(rng: &mut Rng, lines: &mut Vec<Vec<u8>>) {
    let at = rng.below(lines.len() + 1);
    lines.insert(at, b"\n".to_vec());
}

/// Other digits in the place of a number of at most so many.
fn on_number(rng: &mut Rng, text: &mut Vec<u8>, most: usize, to: fn(&mut Rng, &[u8]) -> Vec<u8>) {
    let is_digit = |byte: &u8| byte.is_ascii_digit() || (b'A'..=b'F').contains(byte);
    let mut found = Vec::new();
    let mut at = 0;
    while at < text.len() {
        let length = text[at..].iter().take_while(|byte| is_digit(byte)).count();
        if (1..=most).contains(&length) {
            found.push(at..at + length);
        }
        at += length.max(1);
    }
    if !found.is_empty() {
        let place = found.swap_remove(rng.below(found.len()));
        let digits = to(rng, &text[place.clone()]);
        text.splice(place, digits);
    }
}

fn off_by_one(rng: &mut Rng, digits: &[u8]) -> Vec<u8> {
    let n = digits.iter().fold(0, |n, &digit| n * 10 + (digit - b'0') as i64);
    (n + rng.pick(&[1, -1])).max(0).to_string().into_bytes()
}

/// Zeros in front: what would be too many for a count, or for any number.
fn too_many_digits(rng: &mut Rng, digits: &[u8]) -> Vec<u8> {
    let length = if digits.len() <= 5 { rng.pick(&[6, 17]) } else { 17 };
    [&vec![b'0'; length - digits.len()][..], digits].concat()
}

fn change_a_digit(rng: &mut Rng, digits: &[u8]) -> Vec<u8> {
    let mut digits = digits.to_vec();
    let at = rng.below(digits.len());
    digits[at] = rng.pick(b"0123456789ABCDEF");
    digits
}

/// The sheet line says one more or one fewer, of rows or of structural variables.
fn sheet_line_off_by_one(rng: &mut Rng, text: &mut Vec<u8>) {
    let end = text.iter().position(|&byte| byte == b'\n').unwrap_or(text.len());
    let line = String::from_utf8_lossy(&text[..end]).into_owned();
    let mut counts: Vec<i64> = line.split([' ', ')']).filter_map(|word| word.parse().ok()).collect();
    if counts.len() == 2 {
        counts[rng.below(2)] += rng.pick(&[1, -1]);
        let line = format!("(sheet {} {})", counts[0].max(0), counts[1].max(0));
        text.splice(..end, line.into_bytes());
    }
}
