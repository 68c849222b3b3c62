//! Runs many texts and compares the answers. A text on which a product differs from the promised one (document 02,
//! request 5) is left out of the comparison with the unmodified Rust, and compared with the Rust whose products are the
//! promised ones.
use crate::Arguments;
use crate::answer::{Answer, answer};
use crate::by_hand;
use crate::call::{differs, program_differs};
use crate::counts::Counts;
use crate::generate::Rng;
use crate::lent::Lending;
use crate::make;
use crate::threads::in_parallel;

/// Always enough for an answer.
const ENOUGH: usize = 256;
/// Differences that are shown.
const SHOWN: usize = 10;
/// What question 2 to 12 can refuse in a text, and 1.
const REFUSALS: [usize; 10] = [1, 2, 5, 6, 7, 8, 9, 10, 11, 12];

/// What one thread has found.
#[derive(Default)]
struct Found {
    kinds: Counts,
    answers: Counts,
    refusals: [u64; 13],
    /// Texts left out of the comparison with the unmodified Rust, and those of them that differ.
    left: u64,
    left_differing: u64,
    differing: u64,
    different: Vec<(u64, String)>,
}

impl Found {
    fn look(&mut self, asked: &Arguments, number: u64) {
        let text = make::text(asked.seed, number, &mut self.kinds);
        let right = answer(&text);
        self.refusals[right.refusal] += 1;
        self.left += right.noted as u64;
        let lines = String::from_utf8_lossy(&right.bytes);
        for line in lines.lines().filter(|line| line.ends_with("yes)") || line.ends_with("no)")) {
            self.answers.add(line, 1);
        }
        let child = number % (asked.texts / asked.children.max(1)).max(1) == 0;
        self.run(asked, number, &text, &right, child);
    }

    /// Compares a text's answers, with places that are enough, and once more with places that may be too few.
    fn run(&mut self, asked: &Arguments, number: u64, text: &[u8], right: &Answer, child: bool) {
        let Answer { bytes: right, noted, refusal: _ } = right;
        let how = if asked.apart { Lending::Apart } else { Lending::Guarded };
        let mut rng = Rng::of(!asked.seed, number);
        let few = rng.pick(&[0, 1, right.len() - 1, right.len(), right.len() + 1, 2 * ENOUGH]);
        let few = if rng.percent(30) { rng.below(right.len()) } else { few };
        self.answers.add("answers that did not fit", (few < right.len()) as u64);
        let mut wrong = differs(text, right, ENOUGH, how).or_else(|| differs(text, right, few, how));
        if let (Some(program), true) = (&asked.program, child) {
            self.answers.add("run by the program too", 1);
            let pieces = rng.pick(&[1, 1, 2, 3]);
            wrong = wrong.or_else(|| program_differs(program, text, right, pieces));
        }
        if let Some(wrong) = wrong {
            *(if *noted { &mut self.left_differing } else { &mut self.differing }) += 1;
            self.different.push((number, wrong));
            self.different.truncate(SHOWN);
        }
    }

    fn merge(&mut self, other: Found) {
        self.kinds.add_all(&other.kinds);
        self.answers.add_all(&other.answers);
        self.refusals.iter_mut().zip(other.refusals).for_each(|(all, more)| *all += more);
        self.left += other.left;
        self.left_differing += other.left_differing;
        self.differing += other.differing;
        self.different.extend(other.different);
        self.different.sort();
        self.different.truncate(SHOWN);
    }
}

/// Ends the run: with 1 if anything differs, or a refusal came too rarely.
pub fn compare(asked: &Arguments) -> ! {
    println!("seed {}, {} texts", asked.seed, asked.texts);
    let mut found = Found { kinds: make::kinds(), ..Found::default() };
    for (at, (text, _)) in by_hand::texts().iter().enumerate() {
        let right = answer(text.as_bytes());
        found.run(asked, u64::MAX - at as u64, text.as_bytes(), &right, true);
    }
    for part in in_parallel(asked.texts, |found: &mut Found, number| found.look(asked, number)) {
        found.merge(part);
    }
    found.kinds.print();
    found.answers.print();
    println!("{:>10} accepted", found.refusals[0]);
    for refusal in REFUSALS {
        println!("{:>10} refused with {refusal}", found.refusals[refusal]);
    }
    let rare: Vec<usize> = REFUSALS.into_iter().filter(|&refusal| found.refusals[refusal] < asked.at_least).collect();
    for refusal in &rare {
        println!("refusal {refusal} came fewer than {} times", asked.at_least);
    }
    for (number, wrong) in &found.different {
        println!("text {number}: {wrong}");
    }
    println!(
        "{} texts left out, since a product differs from the promised one; compared with the Rust whose products are \
         the promised ones, {} differ",
        found.left, found.left_differing
    );
    println!("{} texts compared, {} differ", asked.texts - found.left, found.differing);
    let differing = found.differing + found.left_differing;
    std::process::exit((differing != 0 || asked.texts == 0 || !rare.is_empty()) as i32);
}
