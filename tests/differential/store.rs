//! The stored list but for the gaps, which tests/outward adds: sheets with the Rust's answers, in lines of a letter and
//! eight numbers.
//!
//!     S rows structurals entries widened extra class noted 0
//!     D slice place n x x x x x
//!     G refusal holds gap allowance cut zero zeroed rows
//!     L list place n x x x x x
//!
//! Of a sheet on which a product of the Rust differs from the one that request 5 of document 02 promises, `noted` is
//! 1, else 0: such a sheet's answer is the Rust's but for its products, which are the promised ones.
use crate::expected::{Expected, expected, pattern, unmodified};
use crate::generate::{CLASSES, Rng, sheet};
use crate::rust::Walk;
use crate::sheet::Sheet;

fn line(out: &mut String, letter: char, numbers: &[u64]) {
    out.push(letter);
    for at in 0..8 {
        out.push_str(&format!(" {:016X}", numbers.get(at).unwrap_or(&0)));
    }
    out.push('\n');
}

/// Five places to a line; lines that would put what a new sheet has are left out.
fn list(out: &mut String, letter: char, which: u64, numbers: &[u64], leave: Option<&[u64]>) {
    for (chunk, values) in numbers.chunks(5).enumerate() {
        let from = chunk * 5;
        if leave.is_some_and(|leave| leave[from..from + values.len()] == *values) {
            continue;
        }
        let mut line_numbers = vec![which, from as u64, values.len() as u64];
        line_numbers.extend_from_slice(values);
        line(out, letter, &line_numbers);
    }
}

/// A sheet in lines, with what is to come of it.
pub fn lines(sheet: &Sheet, expected: &Expected) -> String {
    let doubles = |list: &[f64]| list.iter().map(|&x| pattern(x)).collect::<Vec<u64>>();
    let counts = |list: &[usize]| list.iter().map(|&n| n as u64).collect::<Vec<u64>>();
    let flags = |list: &[u8]| list.iter().map(|&flag| flag as u64).collect::<Vec<u64>>();
    let mut out = String::new();
    let count = sheet.made_rows + sheet.made_structurals;
    let entries = sheet.entries.len();
    let sizes = [sheet.made_rows, sheet.made_structurals, entries, sheet.widened.len()];
    let mut first = counts(&sizes);
    first.extend([sheet.outputs[0].saturating_sub(count) as u64, sheet.class as u64, expected.noted as u64]);
    line(&mut out, 'S', &first);
    let slices = [
        counts(&sheet.starts),
        counts(&sheet.columns),
        doubles(&sheet.entries),
        doubles(&sheet.right_sides),
        doubles(&sheet.scales),
        flags(&sheet.integer),
        doubles(&sheet.mins),
        doubles(&sheet.maxs),
        doubles(&sheet.low_tolerances),
        doubles(&sheet.high_tolerances),
        flags(&sheet.basic),
        counts(&sheet.places),
        doubles(&sheet.values),
        sheet.widened.iter().map(|item| item.variable as u64).collect(),
        sheet.widened.iter().map(|item| item.up as u64).collect(),
        doubles(&sheet.rho_hi),
        doubles(&sheet.rho_lo),
        doubles(&sheet.second),
    ];
    for (which, numbers) in slices.iter().enumerate() {
        list(&mut out, 'D', which as u64, numbers, Some(&vec![0; numbers.len()]));
    }
    let numbers = [
        pattern(sheet.feasibility),
        sheet.checked as u64,
        sheet.leaving_row as u64,
        sheet.leaving_up as u64,
        sheet.rows as u64,
        sheet.structurals as u64,
        sheet.entry_count as u64,
    ];
    // the sizes are said where they are not those of the first line
    list(&mut out, 'D', 18, &numbers[..4], Some(&[0; 4]));
    for (at, made) in [sheet.made_rows, sheet.made_structurals, entries].into_iter().enumerate() {
        if numbers[4 + at] != made as u64 {
            line(&mut out, 'D', &[18, 4 + at as u64, 1, numbers[4 + at]]);
        }
    }
    line(&mut out, 'G', &expected.kept);
    for (which, numbers) in expected.lists.iter().enumerate() {
        list(&mut out, 'L', which as u64, numbers, None);
    }
    out
}

/// What a sheet comes to, in short.
fn outcome(expected: &Expected) -> (Vec<bool>, u64) {
    let Some(answer) = &expected.answer else {
        return (Vec::new(), expected.kept[0]);
    };
    let marks = [
        answer.holds,
        answer.gap.is_finite(),
        answer.gap.is_nan(),
        answer.walk == Walk::Spoilt,
        answer.walk == Walk::Unlimited,
        answer.cut != 0.0,
        answer.errors.is_some(),
        answer.errors.iter().flatten().any(|&error| error != 0.0),
    ];
    (marks.to_vec(), expected.kept[5] << 32 | expected.kept[6] << 16 | expected.kept[7])
}

/// Clears slices, some left to chance, where the sheet comes to the same in short.
fn strip(rng: &mut Rng, sheet: Sheet) -> Sheet {
    let clear: [fn(&mut Sheet); 16] = [
        |s| s.second.fill(0.0),
        |s| s.rho_lo.fill(0.0),
        |s| s.integer.fill(0),
        |s| s.low_tolerances.fill(0.0),
        |s| s.high_tolerances.fill(0.0),
        |s| s.scales.fill(0.0),
        |s| s.values.fill(0.0),
        |s| {
            if s.class != 10 {
                s.widened.clear();
            }
        },
        |s| s.widened.iter_mut().for_each(|item| item.up = 0),
        |s| s.mins.fill(0.0),
        |s| s.maxs.fill(0.0),
        |s| s.feasibility = 0.0,
        |s| s.places.fill(0),
        |s| s.basic.fill(0),
        |s| s.rho_hi.fill(0.0),
        |s| s.right_sides.fill(0.0),
    ];
    let mut sheet = sheet;
    let before = outcome(&unmodified(&sheet));
    for clear in clear {
        let mut less = sheet.clone();
        clear(&mut less);
        if rng.percent(80) && outcome(&unmodified(&less)) == before {
            sheet = less;
        }
    }
    sheet
}

/// Whether a sheet shows what its class is for; `round` counts those of the class that are stored.
fn wanted(sheet: &Sheet, expected: &Expected, round: usize) -> bool {
    let Some(answer) = &expected.answer else {
        return expected.kept[0] == 2 + round as u64 % 11;
    };
    match sheet.class {
        3 if round % 3 != 0 => answer.multipliers_zeroed > 0,
        4 => match round % 4 {
            0 | 1 => answer.zero_within_error > 0,
            2 => answer.walk == Walk::Unlimited,
            _ => true,
        },
        6 if round % 2 == 0 => !answer.gap.is_finite() || answer.low.iter().any(|low| !low.is_finite()),
        7 => sheet.rho_hi.iter().chain(&sheet.rho_lo).any(|x| !x.is_finite()) == (round % 3 != 0),
        10 => !sheet.widened.is_empty() && (answer.holds || round % 2 == 0),
        11 if round % 6 == 0 => !answer.gap.is_finite(),
        // by less than what the leaving slack's room was cut by
        11 if round % 6 == 1 => answer.holds && answer.gap < answer.allowance + answer.cut,
        11 => {
            let most = answer.magnitudes.iter().fold(0.0, |most: f64, &x| most.max(x));
            let cancelled = answer.high.iter().zip(&answer.magnitudes).any(|(&high, &x)| high == 0.0 && x > 0.0);
            answer.holds && (cancelled || answer.gap <= 1e-13 * most)
        }
        _ => answer.holds || round % 2 == 0,
    }
}

/// Whether a sheet of the last class shows what its turn asks for: how the product is lost, whether `holds` of the
/// unmodified Rust is another, and whether the leaving variable's room is among those lost.
fn shows(sheet: &Sheet, expected: &Expected, turn: usize) -> bool {
    let Some(answer) = &expected.answer else { return false };
    let (room, turned) = (answer.allowance, expected.turned);
    let (smallest, tiny, huge) = (f64::from_bits(8), f64::MIN_POSITIVE / f64::EPSILON, f64::MAX * f64::EPSILON);
    let to_no = turned && !answer.holds;
    let leaving = answer.high[answer.leaving] != 0.0;
    expected.noted
        && match turn % 8 {
            0 => to_no && room < smallest,
            1 => to_no && room >= smallest && room < tiny,
            2 => turned && answer.holds,
            3 => to_no && room > tiny && room < huge,
            4 => to_no && room > huge,
            5 => room == f64::INFINITY,
            6 => turned && !leaving,
            _ => expected.kept == unmodified(sheet).kept,
        }
}

/// Document 01's example; the same with right side 1; and with its variable real and +infinity for its max. Beside each what
/// 01 says of the answer's numbers, in the order of a G line.
fn by_hand() -> [(Sheet, [Option<u64>; 8]); 3] {
    let example = Sheet {
        made_rows: 1,
        made_structurals: 1,
        rows: 1,
        structurals: 1,
        entry_count: 2,
        starts: vec![0, 2],
        columns: vec![0, 1],
        entries: vec![1.0, 1.0],
        right_sides: vec![3.0],
        scales: vec![1.0],
        integer: vec![1],
        mins: vec![0.0, 0.0],
        maxs: vec![1.0, 0.0],
        low_tolerances: vec![0.0, 0.0],
        high_tolerances: vec![0.0, 0.0],
        basic: vec![0, 1],
        places: vec![0, 0],
        values: vec![1.0, 2.0],
        rho_hi: vec![1.0],
        rho_lo: vec![0.0],
        second: vec![0.0],
        outputs: [3; 5],
        ..Sheet::default()
    };
    let small = Sheet { right_sides: vec![1.0], ..example.clone() };
    let unlimited = Sheet { integer: vec![0], maxs: vec![f64::INFINITY, 0.0], ..example.clone() };
    let whole = [0, 1, 0x4000_0000_0000_0000, 0x39F8_0000_0000_0000, 0x3CB0_0000_0000_0324, 0, 0, 1].map(Some);
    let nothing = [Some(0), Some(0), Some(0), None, None, None, None, None];
    let none = [0, 0, 0xFFF0_0000_0000_0000, 0x39E8_0000_0000_0000, 0].map(Some);
    let none = [none[0], none[1], none[2], none[3], none[4], None, None, None];
    [(example, whole), (small, nothing), (unlimited, none)]
}

/// Prints so many sheets at least, of the classes but the last, after those of document 01. Sheets of few lines are
/// taken, since the list is kept in the repository; a few of moderate size come next. They are chosen by the
/// unmodified Rust's answers. On top come sheets of the last class.
pub fn print(seed: u64, sheets: usize) {
    const MODERATE: usize = 5;
    const LAST: usize = 32;
    let mut stored = 0;
    let mut tries = 0;
    let mut rounds = [0; CLASSES.len()];
    for (sheet, said) in by_hand() {
        let expected = expected(&sheet);
        for (number, said) in expected.kept.iter().zip(said) {
            assert!(said.is_none_or(|said| said == *number), "a sum of document 01: {number:016X}");
        }
        print!("{}", lines(&sheet, &expected));
    }
    let turn = [0, 9, 1, 2, 3, 11, 4, 5, 9, 6, 7, 10, 11];
    while stored + MODERATE < sheets.max(MODERATE + 1) {
        tries += 1;
        let mut rng = Rng::of(seed, tries);
        let class = turn[stored % turn.len()];
        let most = match class {
            9 => rng.pick(&[9, 11, 13]),
            11 => rng.pick(&[21, 21, 40]),
            _ => rng.pick(&[14, 15, 15, 16, 16, 19]),
        };
        let made = sheet(&mut rng, class, true);
        // the Rust's answer does not show what rounding outward loses, so such a sheet stays as it is
        let made = if class == 11 { made } else { strip(&mut rng, made) };
        let text = lines(&made, &expected(&made));
        if text.lines().count() <= most && wanted(&made, &unmodified(&made), rounds[class]) {
            print!("{text}");
            stored += 1;
            rounds[class] += 1;
        }
    }
    for _ in 0..MODERATE {
        tries += 1;
        let made = sheet(&mut Rng::of(seed, tries), 8, true);
        print!("{}", lines(&made, &expected(&made)));
    }
    let mut last = 0;
    while last < LAST {
        tries += 1;
        let made = sheet(&mut Rng::of(seed, tries), CLASSES.len() - 1, true);
        let expected = expected(&made);
        let text = lines(&made, &expected);
        if text.lines().count() <= 24 && shows(&made, &expected, last) {
            print!("{text}");
            last += 1;
        }
    }
}
