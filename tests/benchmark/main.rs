//! Times the full verdict against the unmodified Rust's `proof_of` and an outward reckoning in C, in one process on
//! the same sheets.
//!
//!     --seed N          the seed of the sheets, else 1
//!     --repetitions N   how often each side is timed, else 400
//!     --sheets N        so many sheets of each size, else as many as have 32,768 entries together
//!     --check N         instead compares the outward gap in C with the verdict's on N sheets of all classes
//!
//! With 32,768 entries at every size, caches and branch prediction are put to the same test at each; a few small sheets time
//! and again are soon known by heart. Both sides go through all sheets in turn, time and again, and of each side the fastest turn counts. The verdict
//! asks its questions of every sheet, which the others do not.
#[allow(dead_code)]
#[path = "../differential/directed.rs"]
mod directed;
#[path = "../differential/generate/mod.rs"]
mod generate;
#[allow(dead_code)]
#[path = "../differential/library.rs"]
mod library;
mod outward;
#[allow(dead_code)]
#[path = "../differential/products.rs"]
mod products;
#[allow(dead_code, unused_variables)]
#[path = "../differential/rust.rs"]
mod rust;
#[allow(dead_code)]
#[path = "../differential/sheet.rs"]
mod sheet;
mod verdict;

use generate::{Rng, class_of, timed};
use library::Answer;
use rust::{Multipliers, Solver, answer, reckon};
use sheet::Sheet;
use std::hint::black_box;
use std::time::Instant;
use verdict::Lent;

const SIZES: [usize; 7] = [64, 128, 256, 512, 1024, 2048, 4096];
const ENTRIES: usize = 32_768;

/// The number after a word of the command line.
fn argument(word: &str) -> Option<u64> {
    let words: Vec<String> = std::env::args().collect();
    let at = words.iter().position(|w| w == word)?;
    Some(words[at + 1].parse().expect("a number"))
}

/// Sheets of so many entries whose verdict goes through all variables and declines.
fn sheets(seed: u64, entries: usize, checked: bool, count: usize) -> Vec<Sheet> {
    let mut rng = Rng::of(seed, entries as u64);
    let mut found = Vec::new();
    while found.len() < count {
        let sheet = timed(&mut rng, entries, checked);
        let gap = outward::outward(&sheet);
        let Answer { refusal, verdict } = Lent::of(&sheet).verdict(&sheet);
        assert_eq!(refusal, 0);
        assert_eq!(verdict.proof.gap.to_bits(), answer(&sheet).gap.to_bits());
        assert_eq!(verdict.outward.to_bits(), gap.to_bits());
        if verdict.declined != 0 {
            found.push(sheet);
        }
    }
    found
}

/// Nanoseconds that a turn takes, if it is the fastest yet.
fn time(best: &mut f64, turn: impl FnOnce()) {
    let start = Instant::now();
    turn();
    *best = best.min(start.elapsed().as_nanos() as f64);
}

fn bench(seed: u64, repetitions: u64, few: Option<u64>) {
    match few {
        Some(count) => println!("seed {seed}; ns for a sheet, fastest of {repetitions} turns over {count} sheets"),
        None => println!("seed {seed}; ns for a sheet, fastest of {repetitions} turns over {ENTRIES} entries"),
    }
    println!("{:>8} {:>10} {:>8} {:>8} {:>8} {:>7} {:>10}", "entries", "", "verdict", "Rust", "C", "ratio", "ns/entry");
    for checked in [false, true] {
        for entries in SIZES {
            let sheets = sheets(seed, entries, checked, few.map_or(ENTRIES / entries, |count| count as usize));
            let mut lent: Vec<Lent> = sheets.iter().map(Lent::of).collect();
            let mut solvers: Vec<_> = sheets
                .iter()
                .map(|sheet| (Solver::of(sheet), Multipliers::of(sheet), sheet.leaving_row, sheet.leaving_up != 0))
                .collect();
            let [mut verdict, mut rust, mut c] = [f64::INFINITY; 3];
            for _ in 0..repetitions {
                time(&mut verdict, || {
                    for (sheet, lent) in sheets.iter().zip(&mut lent) {
                        black_box(lent.verdict(black_box(sheet)));
                    }
                });
                time(&mut rust, || {
                    for (solver, multipliers, row, up) in &mut solvers {
                        black_box(reckon(black_box(solver), multipliers, *row, *up));
                    }
                });
                time(&mut c, || {
                    for sheet in &sheets {
                        black_box(outward::outward(black_box(sheet)));
                    }
                });
            }
            let [verdict, rust, c] = [verdict, rust, c].map(|all| all / sheets.len() as f64);
            let how = if checked { "checked" } else { "unchecked" };
            let (ratio, each) = (verdict / (rust + c), verdict / entries as f64);
            println!("{entries:>8} {how:>10} {verdict:>8.0} {rust:>8.0} {c:>8.0} {ratio:>7.2} {each:>10.1}");
        }
    }
}

/// How many of so many sheets are accepted, and of these how many differ in the outward gap.
fn check(seed: u64, count: u64) {
    let (mut accepted, mut finite, mut different) = (0, 0, 0);
    for at in 0..count {
        let sheet = generate::sheet(&mut Rng::of(seed, at), class_of(at), false);
        if sheet.first_no() == 0 {
            let here = Lent::of(&sheet).verdict(&sheet).verdict.outward;
            let there = outward::outward(&sheet);
            accepted += 1;
            finite += here.is_finite() as u64;
            if here.to_bits() != there.to_bits() {
                different += 1;
                println!("sheet {at}: {:016X}, in C {:016X}", here.to_bits(), there.to_bits());
            }
        }
    }
    println!("seed {seed}: {accepted} accepted of {count}, {finite} outward gaps finite, {different} different");
    assert_eq!(different, 0);
}

fn main() {
    let seed = argument("--seed").unwrap_or(1);
    match argument("--check") {
        Some(count) => check(seed, count),
        None => bench(seed, argument("--repetitions").unwrap_or(400), argument("--sheets")),
    }
}
