//! The texts that are tried: sound ones, sheets that a question refuses, damaged texts, and texts about the limits.
use crate::counts::Counts;
use crate::damage;
use crate::draft::Draft;
use crate::form;
use crate::generate::{self, Rng};
use crate::large;
use crate::sheet::Sheet;

/// A sheet whose slices fit together, with a few NaNs of any kind among its multipliers.
fn sheet(rng: &mut Rng) -> Sheet {
    let class = rng.pick(&[0, 1, 2, 3, 4, 5, 6, 7, 10, 11]);
    let few_numbers = rng.percent(70);
    let mut sheet = generate::sheet(rng, class, few_numbers);
    if rng.percent(5) {
        let nan = f64::from_bits(0x7FF0_0000_0000_0001 | rng.next());
        let list = rng.pick(&[8, 9, 10]);
        let at = rng.below(sheet.rows);
        sheet.doubles_to_change()[list][at] = nan;
    }
    sheet
}

/// Whether a text says what a sheet does: so this program's reader and writer are held against each other.
fn says(text: &[u8], sheet: &Sheet) -> bool {
    let Some(read) = form::read(text) else {
        return text.len() > form::MOST_BYTES;
    };
    let flag = |list: &[u8]| list.iter().map(|&flag| flag != 0).collect::<Vec<bool>>();
    // what a text does not say
    let mut sheet = sheet.clone();
    if sheet.checked == 0 {
        sheet.second.fill(0.0);
    }
    for var in 0..sheet.basic.len() {
        if sheet.basic[var] == 0 {
            sheet.places[var] = 0;
        }
    }
    let bits = |sheet: &Sheet| sheet.doubles().map(|list| list.iter().map(|x| x.to_bits()).collect::<Vec<u64>>());
    let scalars = |s: &Sheet| (s.rows, s.structurals, s.entry_count, s.feasibility.to_bits(), s.leaving_row);
    scalars(&read) == scalars(&sheet)
        && (read.checked != 0, read.leaving_up != 0) == (sheet.checked != 0, sheet.leaving_up != 0)
        && bits(&read) == bits(&sheet)
        && read.counts() == sheet.counts()
        && read.flags().map(|list| flag(list)) == sheet.flags().map(|list| flag(list))
        && read.sides() == sheet.sides()
}

fn sound(rng: &mut Rng) -> Vec<u8> {
    let sheet = sheet(rng);
    let text = Draft::of(&sheet).text(rng);
    assert!(says(&text, &sheet), "this program's reader does not find what its writer has written");
    text
}

/// The form of a sheet, but a question refuses what it says, mostly.
fn refused(rng: &mut Rng) -> Vec<u8> {
    let mut sheet = sheet(rng);
    for _ in 0..rng.pick(&[1, 1, 1, 2, 3]) {
        let question = 5 + rng.below(8);
        generate::damage(rng, &mut sheet, question, false);
    }
    Draft::of(&sheet).text(rng)
}

/// The front of one text and the rest of another, from any byte on or from a line on.
fn spliced(rng: &mut Rng) -> Vec<u8> {
    let (mut front, rest) = (sound(rng), sound(rng));
    let by_lines = rng.percent(70);
    let mut cut = |text: &[u8]| {
        let at = rng.below(text.len() + 1);
        if by_lines { text[..at].iter().rposition(|&byte| byte == b'\n').map_or(0, |end| end + 1) } else { at }
    };
    front.truncate(cut(&front));
    front.extend_from_slice(&rest[cut(&rest)..]);
    front
}

/// No sheet at all.
fn noise(rng: &mut Rng) -> Vec<u8> {
    let length = rng.pick(&[0, 1, 2, 11, 12, 100, 70_000]);
    let only_ascii = rng.percent(50);
    (0..length).map(|_| if only_ascii { rng.pick(b"(sheet 0123)\n") } else { rng.next() as u8 }).collect()
}

const NOISE: &str = "no sheet at all";
const NO_ROWS: &str = "no rows";
const SPLICED: &str = "the front of one text and the rest of another";
const SOUND: &str = "sound";
const REFUSED: &str = "damaged for a question";

/// Every kind, none met so far.
pub fn kinds() -> Counts {
    let mut kinds = Counts::default();
    let large = large::KINDS.iter().map(|kind| kind.0);
    let damage = damage::KINDS.iter().map(|kind| kind.0);
    for name in [SOUND, REFUSED, SPLICED, NOISE, NO_ROWS].into_iter().chain(large).chain(damage) {
        kinds.add(name, 0);
    }
    kinds
}

/// Text `number` of a seed, and the kinds of damage that it has.
pub fn text(seed: u64, number: u64, kinds: &mut Counts) -> Vec<u8> {
    let mut rng = Rng::of(seed, number);
    let rng = &mut rng;
    match rng.below(200) {
        0 => {
            let (name, large) = rng.pick(&large::KINDS);
            kinds.add(name, 1);
            let mut text = large::text(rng, large);
            if rng.percent(30) {
                harm(rng, &mut text, kinds);
            }
            text
        }
        1 => {
            kinds.add(NOISE, 1);
            noise(rng)
        }
        2 => {
            kinds.add(NO_ROWS, 1);
            large::text(rng, large::NO_ROWS)
        }
        3..7 => {
            kinds.add(SPLICED, 1);
            spliced(rng)
        }
        7..40 => {
            kinds.add(SOUND, 1);
            sound(rng)
        }
        40..85 => {
            kinds.add(REFUSED, 1);
            refused(rng)
        }
        _ => {
            let mut text = if rng.percent(80) { sound(rng) } else { refused(rng) };
            for _ in 0..rng.pick(&[1, 1, 1, 1, 2, 3]) {
                harm(rng, &mut text, kinds);
            }
            text
        }
    }
}

fn harm(rng: &mut Rng, text: &mut Vec<u8>, kinds: &mut Counts) {
    let (name, damage) = rng.pick(&damage::KINDS);
    kinds.add(name, 1);
    damage(rng, text);
}
