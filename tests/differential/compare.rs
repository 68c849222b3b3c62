//! Calls the function under test on many sheets, and compares all that they answer and leave behind.
//!
//! A sheet on which each of the Rust's products is the promised one (document 02, request 5) is compared with the
//! unmodified Rust. Any other is left out of that, and compared with the same Rust whose products are the promised
//! ones; what is left out and what differs there is counted apart.
use crate::call::Call;
use crate::counts::Counts;
use crate::expected::{Expected, Outward, expected, outward, pattern};
use crate::lent::Lending;
use crate::library::{Answer, sums};
use crate::outward::rounds_rightly;
use crate::rust;
use crate::sheet::Sheet;
use crate::threads::in_parallel;

/// Differences shown of a sheet, and sheets shown.
const SHOWN: usize = 5;
/// A run of so many sheets or more is asked how many sheets are left out and how many of these turn.
const MANY: u64 = 1_000_000;
/// The class of which any part may be left out.
const REACHES_LOST: &str = "reaches lost";
/// Of so many sheets one is put to exact numbers too, which are dear. Prime, so that every class has its turn.
const EXACT: u64 = 17;

/// The answer's numbers with their names.
fn numbers(&Answer { refusal, verdict }: &Answer) -> Vec<(&'static str, u64)> {
    vec![
        ("refusal", refusal as u64),
        ("holds", verdict.proof.holds as u64),
        ("gap", pattern(verdict.proof.gap)),
        ("allowance", pattern(verdict.proof.allowance)),
        ("cut", pattern(verdict.proof.cut)),
        ("zero within error", verdict.proof.zero_within_error as u64),
        ("zeroed", verdict.proof.multipliers_zeroed as u64),
        ("rows", verdict.proof.rows as u64),
        ("outward", pattern(verdict.outward)),
        ("declined", verdict.declined as u64),
    ]
}

/// What differs on a sheet.
fn differences(sheet: &Sheet, expected: &Expected, outward: Option<&Outward>, how: Lending) -> Vec<String> {
    const LISTS: [&str; 5] = ["high", "low", "magnitudes", "terms", "errors"];
    let mut call = Call::of(sheet, how);
    let answer = call.run(sheet);
    let mut right = expected.kept.to_vec();
    right.push(outward.map_or(0, |outward| pattern(outward.gap)));
    right.push(outward.is_some_and(|outward| outward.declined) as u64);
    let mut all = Vec::new();
    for ((name, found), right) in numbers(&answer).into_iter().zip(right) {
        if found != right {
            all.push(format!("{name} is {found:016X}, expected {right:016X}"));
        }
    }
    let doubles = |list: &[f64]| list.iter().map(|&x| pattern(x)).collect::<Vec<u64>>();
    let [high, low, magnitudes, errors] = call.outputs.each_ref().map(|lent| doubles(lent.items()));
    let terms = call.terms.items().iter().map(|&n| n as u64).collect();
    for (list, found) in [high, low, magnitudes, terms, errors].iter().enumerate() {
        for (place, (&found, &right)) in found.iter().zip(&expected.lists[list]).enumerate() {
            if found != right {
                let name = LISTS[list];
                all.push(format!("{name} {place} is {found:016X}, expected {right:016X}"));
            }
        }
    }
    if !call.is_clean(sheet) {
        all.push("a place that may not be written to has changed".to_string());
    }
    all
}

/// What one thread has found.
#[derive(Default)]
struct Found {
    classes: Vec<u64>,
    /// Of each class those left out.
    left: Vec<u64>,
    /// Sheets left out on which `holds` of the unmodified Rust is another, by what it is there.
    turned: [u64; 2],
    counts: Counts,
    outward: Counts,
    calls: Counts,
    refusals: [u64; 13],
    differing: u64,
    left_differing: u64,
    different: Vec<(u64, usize, Vec<String>)>,
}

impl Found {
    fn look(&mut self, number: u64, sheet: &Sheet, how: Lending) {
        // of the sheets compared with the unmodified Rust, and of those left out
        let (mut all, mut left) = (Vec::new(), Vec::new());
        let expected = expected(sheet);
        self.note(sheet, &expected);
        let outward = expected.answer.as_ref().map(|answer| outward(sheet, answer));
        let found = differences(sheet, &expected, outward.as_ref(), how);
        (if expected.noted { &mut left } else { &mut all }).extend(found);
        if let (Some(answer), Some(outward)) = (&expected.answer, &outward) {
            self.outward.note_outward(answer.holds, outward);
            if number % EXACT == 0 {
                self.ask_exact(sheet, outward, &mut all);
            }
        }
        if number % EXACT == 0 {
            self.add_in_place(sheet, &mut all);
        }
        self.differing += !all.is_empty() as u64;
        self.left_differing += !left.is_empty() as u64;
        all.append(&mut left);
        if !all.is_empty() {
            self.different.push((number, sheet.class, all));
            self.different.truncate(SHOWN);
        }
    }

    /// Counts a sheet.
    fn note(&mut self, sheet: &Sheet, expected: &Expected) {
        for list in [&mut self.classes, &mut self.left] {
            list.resize(list.len().max(sheet.class + 1), 0);
        }
        self.classes[sheet.class] += 1;
        self.left[sheet.class] += expected.noted as u64;
        self.refusals[expected.kept[0] as usize] += 1;
        self.counts.note(sheet, expected);
        if let (Some(answer), true) = (&expected.answer, expected.turned) {
            self.turned[!answer.holds as usize] += 1;
        }
    }

    /// Whether the reckoning in doubles is right, told by exact numbers.
    fn ask_exact(&mut self, sheet: &Sheet, outward: &Outward, all: &mut Vec<String>) {
        match outward.reckoning.claims(outward.gap) {
            Some(how) => self.outward.add(how, 1),
            None => all.push(format!("outward {:016X} is above the exact gap", pattern(outward.gap))),
        }
        let finite: Vec<f64> = sheet.doubles().into_iter().flatten().copied().filter(|x| x.is_finite()).collect();
        for pair in finite.windows(2).take(20) {
            self.outward.add("pairs summed and multiplied in exact numbers", 1);
            if !rounds_rightly(pair[0], pair[1]) {
                all.push(format!("{:016X} and {:016X} are rounded wrongly", pair[0].to_bits(), pair[1].to_bits()));
            }
        }
    }

    /// Whether the sums in place are the Rust's, on numbers of the sheet.
    fn add_in_place(&mut self, sheet: &Sheet, all: &mut Vec<String>) {
        let numbers: Vec<f64> = sheet.doubles().into_iter().flatten().copied().collect();
        for five in numbers.windows(5).take(20) {
            self.calls.add("sums in place", 2);
            let five = five.try_into().expect("five numbers");
            let (found, right) = (sums(five).map(pattern), rust::sums(five).map(pattern));
            if found != right {
                all.push(format!("sums in place are {found:016X?}, expected {right:016X?}"));
            }
        }
    }

    fn merge(&mut self, other: Found) {
        for (list, more) in [(&mut self.classes, other.classes), (&mut self.left, other.left)] {
            list.resize(list.len().max(more.len()), 0);
            list.iter_mut().zip(more).for_each(|(all, more)| *all += more);
        }
        self.turned.iter_mut().zip(other.turned).for_each(|(all, more)| *all += more);
        self.refusals.iter_mut().zip(other.refusals).for_each(|(all, more)| *all += more);
        self.counts.add_all(&other.counts);
        self.outward.add_all(&other.outward);
        self.calls.add_all(&other.calls);
        self.differing += other.differing;
        self.left_differing += other.left_differing;
        self.different.extend(other.different);
        self.different.sort();
        self.different.truncate(SHOWN);
    }

    fn print(&self, classes: &[&str]) {
        for (class, count) in self.classes.iter().enumerate() {
            println!("{count:>10} class {class}, {}", classes[class]);
        }
        self.counts.print();
        self.outward.print();
        self.calls.print();
        for (number, count) in self.refusals.iter().enumerate().filter(|(number, _)| *number != 1) {
            let what = if number == 0 { "accepted".to_string() } else { format!("refused with {number}") };
            println!("{count:>10} {what}");
        }
        for (number, class, all) in &self.different {
            println!("sheet {number} of class {class}: {} differences", all.len());
            for difference in all.iter().take(SHOWN) {
                println!("    {difference}");
            }
        }
        for (class, count) in self.left.iter().enumerate() {
            println!("{count:>10} left out of class {class}, {}", classes[class]);
        }
        let [to_yes, to_no] = self.turned;
        println!("{to_yes:>10} hold with the promised products and not in the unmodified Rust");
        println!("{to_no:>10} hold in the unmodified Rust and not with the promised products");
        println!("{:>10} turns of `holds`", to_yes + to_no);
    }

    /// What a run of many sheets lacks, in words.
    fn amiss(&self, classes: &[&str], sheets: u64, turns_a_million: u64) -> Vec<String> {
        let mut all = Vec::new();
        for (class, (left, count)) in self.left.iter().zip(&self.classes).enumerate() {
            if classes[class] != REACHES_LOST && left * 5 > *count {
                all.push(format!("more than a fifth of class {class} is left out"));
            }
        }
        if self.left.iter().sum::<u64>() < 100 {
            all.push("fewer than 100 sheets are left out".to_string());
        }
        if self.turned.iter().sum::<u64>() * 1_000_000 < turns_a_million * sheets {
            all.push(format!("`holds` turns on fewer than {turns_a_million} sheets in a million"));
        }
        all
    }
}

/// Compares on so many sheets, on every core, and ends the run: with 1 if anything differs, or a run of many sheets
/// leaves out too many or too few or has too few turns.
pub fn compare(
    sheets: u64,
    classes: &[&str],
    turns_a_million: u64,
    how: Lending,
    make: impl Fn(u64) -> Sheet + Sync,
) -> ! {
    let mut found = Found::default();
    for part in in_parallel(sheets, |found: &mut Found, number| found.look(number, &make(number), how)) {
        found.merge(part);
    }
    found.print(classes);
    let amiss = if sheets < MANY { Vec::new() } else { found.amiss(classes, sheets, turns_a_million) };
    for what in &amiss {
        println!("{what}");
    }
    let left: u64 = found.left.iter().sum();
    println!(
        "{left} sheets left out, since a product differs from the promised one; compared with the Rust whose products \
         are the promised ones, {} differ",
        found.left_differing
    );
    println!(
        "{} sheets, verdicts compared with the Rust and the outward gap, {} differ",
        sheets - left,
        found.differing
    );
    let wrong = found.differing + found.left_differing != 0 || sheets == 0 || !amiss.is_empty();
    std::process::exit(wrong as i32);
}
