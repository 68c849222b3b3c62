//! Reads the stored list (store.rs, tests/outward) and compares its outward gaps, which are reckoned in fractions there, with
//! those reckoned here.
use crate::expected::{outward, pattern};
use crate::rust::answer;
use crate::sheet::{Sheet, Widened};

fn numbers(line: &str) -> Vec<u64> {
    let number = |word| u64::from_str_radix(word, 16).expect("a number of 16 digits");
    line.split_whitespace().skip(1).map(number).collect()
}

/// A line S: a sheet of such sizes, 0 everywhere.
fn made(sizes: &[u64]) -> Sheet {
    let [rows, structurals, entries, widened] = [0, 1, 2, 3].map(|at| sizes[at] as usize);
    let count = rows + structurals;
    Sheet {
        rows,
        structurals,
        entry_count: entries,
        starts: vec![0; rows + 1],
        columns: vec![0; entries],
        entries: vec![0.0; entries],
        right_sides: vec![0.0; rows],
        scales: vec![0.0; rows],
        integer: vec![0; structurals],
        mins: vec![0.0; count],
        maxs: vec![0.0; count],
        low_tolerances: vec![0.0; count],
        high_tolerances: vec![0.0; count],
        basic: vec![0; count],
        places: vec![0; count],
        values: vec![0.0; count],
        widened: vec![Widened::of(0, 0); widened],
        rho_hi: vec![0.0; rows],
        rho_lo: vec![0.0; rows],
        second: vec![0.0; rows],
        outputs: [count; 5],
        ..Sheet::default()
    }
}

/// A line D: which slice, from where, how many, then they.
fn fill(sheet: &mut Sheet, line: &[u64]) {
    // as store.rs numbers them: the place of each among the doubles, the counts and the flags
    const DOUBLES: [usize; 11] = [2, 3, 4, 6, 7, 8, 9, 12, 15, 16, 17];
    const COUNTS: [usize; 3] = [0, 1, 11];
    const FLAGS: [usize; 2] = [5, 10];
    const VARIABLES: usize = 13;
    const SIDES: usize = 14;
    let which = line[0] as usize;
    for (at, &x) in line[3..3 + line[2] as usize].iter().enumerate() {
        let place = line[1] as usize + at;
        if let Some(list) = DOUBLES.iter().position(|&slice| slice == which) {
            sheet.doubles_to_change()[list][place] = f64::from_bits(x);
        } else if let Some(list) = COUNTS.iter().position(|&slice| slice == which) {
            sheet.counts_to_change()[list][place] = x as usize;
        } else if let Some(list) = FLAGS.iter().position(|&slice| slice == which) {
            sheet.flags_to_change()[list][place] = x as u8;
        } else if which == VARIABLES {
            sheet.widened[place].variable = x as usize;
        } else if which == SIDES {
            sheet.widened[place].up = x as u8;
        } else {
            match place {
                0 => sheet.feasibility = f64::from_bits(x),
                1 => sheet.checked = x as u8,
                2 => sheet.leaving_row = x as usize,
                3 => sheet.leaving_up = x as u8,
                4 => sheet.rows = x as usize,
                5 => sheet.structurals = x as usize,
                _ => sheet.entry_count = x as usize,
            }
        }
    }
}

pub fn run() {
    let mut sheet = Sheet::default();
    let (mut sheets, mut refused, mut above) = (0, 0, 0);
    for line in std::io::stdin().lines() {
        let line = line.expect("a list on standard input");
        let numbers = numbers(&line);
        match line.as_bytes().first() {
            Some(b'S') => sheet = made(&numbers),
            Some(b'D') => fill(&mut sheet, &numbers),
            Some(b'O') => {
                sheets += 1;
                assert_eq!(sheet.first_no() as u64, numbers[0], "the refusal of stored sheet {sheets}");
                if numbers[0] != 0 {
                    refused += 1;
                    continue;
                }
                let outward = outward(&sheet, &answer(&sheet));
                assert_eq!(pattern(outward.gap), numbers[1], "the outward gap of stored sheet {sheets}");
                assert!(outward.reckoning.claims(outward.gap).is_some(), "stored sheet {sheets} claims too much");
                above += (outward.gap > 0.0) as usize;
            }
            _ => {}
        }
    }
    assert!(sheets > 0, "no sheets on standard input");
    println!(
        "{sheets} stored sheets, {refused} refused, {above} with an outward gap above 0: every gap as fractions give it"
    );
}
