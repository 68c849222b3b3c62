//! Compares the verdict over slices with the Rust that its kept numbers follow and with the outward gap that document 01
//! says, on sheets made from a seed.
//!
//! A sheet on which a product that the Rust's `mul_up` takes has other bits than the one that request 5 of document 02
//! promises is left out of the comparison with the unmodified Rust. It is compared with the same Rust whose `mul_up`
//! answers the promised product (products.rs), and counted apart.
//!
//!     --seed N --sheets N   compares on so many sheets; ends with 1 if anything differs, and from a million sheets on
//!                           if too many or too few are left out, or `holds` turns on too few of these (compare.rs)
//!     --seed N --fuzz N     the same on slices that are damaged in every way
//!     --apart               lends each slice in memory of its own, without guards, for a tool that watches memory
//!     --store N             prints at least N sheets with these answers, as the stored list has them but for the gaps,
//!                           which tests/outward adds
//!     --outward             reads such a list with its gaps, and compares each outward gap with the one reckoned here
//!     --show N              prints sheet N of the seed, with its answer
//!
//! Every number of the answer, every place of the outputs and those round them, and every lent place are compared by bits, a
//! NaN counted as one. The Rust asks no questions; which sheets are refused is worked out from document 01 (sheet.rs).
#[cfg(not(alone))]
mod call;
#[cfg(not(alone))]
mod compare;
mod counts;
mod directed;
mod exact;
mod expected;
mod generate;
#[cfg(not(alone))]
mod lent;
#[cfg(not(alone))]
mod library;
mod outward;
mod products;
mod replay;
#[allow(dead_code, unused_variables)]
mod rust;
#[cfg(not(alone))]
mod shaken;
mod sheet;
mod store;
#[cfg(not(alone))]
mod threads;

use generate::{Rng, class_of};

struct Arguments {
    seed: u64,
    sheets: u64,
    fuzz: Option<u64>,
    apart: bool,
}

fn main() {
    let mut arguments = std::env::args().skip(1);
    let mut asked = Arguments { seed: 1, sheets: 1_000_000, fuzz: None, apart: false };
    let (mut stored, mut show, mut outward) = (None, None, false);
    while let Some(name) = arguments.next() {
        let mut number = || -> u64 {
            arguments.next().and_then(|n| n.parse().ok()).unwrap_or_else(|| panic!("{name} asks for a number"))
        };
        match name.as_str() {
            "--seed" => asked.seed = number(),
            "--sheets" => asked.sheets = number(),
            "--fuzz" => asked.fuzz = Some(number()),
            "--store" => stored = Some(number()),
            "--show" => show = Some(number()),
            "--apart" => asked.apart = true,
            "--outward" => outward = true,
            _ => panic!("no argument {name}"),
        }
    }
    if let Some(count) = stored {
        store::print(asked.seed, count as usize);
    } else if let Some(number) = show {
        let sheet = generate::sheet(&mut Rng::of(asked.seed, number), class_of(number), false);
        print!("{}", store::lines(&sheet, &expected::expected(&sheet)));
    } else if outward {
        replay::run();
    } else {
        run(asked);
    }
}

#[cfg(not(alone))]
fn run(asked: Arguments) {
    let how = if asked.apart { lent::Lending::Apart } else { lent::Lending::Guarded };
    let seed = asked.seed;
    if let Some(sheets) = asked.fuzz {
        println!("seed {seed}, {sheets} damaged sheets");
        compare::compare(sheets, &shaken::CLASSES, 0, how, |number| shaken::sheet(&mut Rng::of(seed, number)));
    } else {
        println!("seed {seed}, {} sheets", asked.sheets);
        compare::compare(asked.sheets, &generate::CLASSES, 1000, how, |number| {
            let class = class_of(number);
            let sheet = generate::sheet(&mut Rng::of(seed, number), class, false);
            assert!(class == 9 || sheet.first_no() == 0, "sheet {number} of class {class} is refused");
            sheet
        });
    }
}

#[cfg(alone)]
fn run(asked: Arguments) {
    let Arguments { seed: _, sheets: _, fuzz: _, apart: _ } = asked;
    panic!("built without the library: only --store, --outward and --show");
}
