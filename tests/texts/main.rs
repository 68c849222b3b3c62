//! Compares `weigh_text`, and the program `weigh`, with what document 01 says of texts: with this program's own reader
//! of the sheet's form, the questions, the Rust's kept numbers and the outward gap. Where a product differs from the
//! one that request 5 of document 02 promises, the kept numbers are those of the Rust whose products are the promised
//! ones, and the text is counted apart.
//!
//!     --seed N --texts N    compares on so many texts; ends with 1 if anything differs
//!     --at-least N          ends with 1 too if a refusal that a text can have came less often
//!     --apart               lends each slice in memory of its own, without guards, for a tool that watches memory
//!     --program FILE --children N    also runs the program on so many of the texts
//!     --store N             prints N texts with their answers (store.rs)
//!     --lines               in lines of numbers
//!     --show N              prints text N of the seed and its answer
//!
//! All bytes of the answer, its length, the places behind it and what is round every lent slice are compared. A text says
//! neither lengths nor row starts, so questions 3 and 4 refuse none; tests/differential puts them to slices.
mod answer;
mod by_hand;
#[cfg(not(alone))]
mod call;
#[cfg(not(alone))]
mod compare;
mod damage;
mod draft;
mod form;
mod large;
mod make;
mod store;

// what the comparison over slices has too
#[path = "../differential/counts.rs"]
#[allow(dead_code)]
mod counts;
#[path = "../differential/directed.rs"]
mod directed;
#[path = "../differential/exact.rs"]
#[allow(dead_code)]
mod exact;
#[path = "../differential/expected.rs"]
#[allow(dead_code)]
mod expected;
#[path = "../differential/generate/mod.rs"]
#[allow(dead_code)]
mod generate;
#[cfg(not(alone))]
#[path = "../differential/lent.rs"]
#[allow(dead_code)]
mod lent;
#[path = "../differential/outward.rs"]
#[allow(dead_code)]
mod outward;
#[path = "../differential/products.rs"]
mod products;
#[path = "../differential/rust.rs"]
#[allow(dead_code, unused_variables)]
mod rust;
#[path = "../differential/sheet.rs"]
#[allow(dead_code)]
mod sheet;
#[cfg(not(alone))]
#[path = "../differential/threads.rs"]
mod threads;

pub struct Arguments {
    seed: u64,
    texts: u64,
    at_least: u64,
    apart: bool,
    program: Option<String>,
    children: u64,
}

fn main() {
    let mut arguments = std::env::args().skip(1);
    let mut asked = Arguments { seed: 1, texts: 100_000, at_least: 0, apart: false, program: None, children: 1000 };
    let (mut stored, mut show, mut lines) = (None, None, false);
    while let Some(name) = arguments.next() {
        let mut value = || arguments.next().unwrap_or_else(|| panic!("{name} asks for more"));
        let number = |value: String| -> u64 { value.parse().unwrap_or_else(|_| panic!("{name} asks for a number")) };
        match name.as_str() {
            "--seed" => asked.seed = number(value()),
            "--texts" => asked.texts = number(value()),
            "--at-least" => asked.at_least = number(value()),
            "--apart" => asked.apart = true,
            "--program" => asked.program = Some(value()),
            "--children" => asked.children = number(value()),
            "--store" => stored = Some(number(value())),
            "--lines" => lines = true,
            "--show" => show = Some(number(value())),
            _ => panic!("no argument {name}"),
        }
    }
    for (text, said) in by_hand::texts() {
        let answer = answer::answer(text.as_bytes()).bytes;
        assert!(String::from_utf8_lossy(&answer).contains(said), "document 01 says otherwise of\n{text}");
    }
    if let Some(texts) = stored {
        store::print(asked.seed, texts as usize, lines);
    } else if let Some(number) = show {
        let text = make::text(asked.seed, number, &mut counts::Counts::default());
        print!("{}{}", String::from_utf8_lossy(&text), String::from_utf8_lossy(&answer::answer(&text).bytes));
    } else {
        run(asked);
    }
}

#[cfg(not(alone))]
fn run(asked: Arguments) {
    compare::compare(&asked);
}

#[cfg(alone)]
fn run(asked: Arguments) {
    let Arguments { seed: _, texts: _, at_least: _, apart: _, program: _, children: _ } = asked;
    panic!("built without the library: only --store and --show");
}
