//! Holds the table's answers to the Rust that the crate cdouble follows, bit for bit, a NaN counted
//! as one. That Rust is cut out of its documents (tests/cut.py) into a folder that CUT names.
//!
//! Left out are the products of finite factors where request 5 of document 02 promises another than
//! the Rust has. The table's answer to every such product must be the promised one, worked out here
//! once more.
#![allow(dead_code)]

use std::cmp::Ordering;

mod proof {
    include!(concat!(env!("CUT"), "/sums.rs"));
    include!(concat!(env!("CUT"), "/mul_up.rs"));

    // below the module, so that it sees what is private there
    pub mod table {
        use super::{add_up, compensated_error, distance_up, mul_up, CDouble};
        use std::hint::black_box;

        fn bits(x: f64) -> u64 {
            if x.is_nan() { 0x7FF8_0000_0000_0000 } else { x.to_bits() }
        }

        fn one(x: f64) -> [u64; 2] {
            [bits(x), 0]
        }

        fn two((x, y): (f64, f64)) -> [u64; 2] {
            [bits(x), bits(y)]
        }

        fn pair(c: CDouble) -> [u64; 2] {
            two((c.hi, c.lo))
        }

        pub fn answer(letter: &str, numbers: &[u64]) -> [u64; 2] {
            // hidden from the compiler, so that what runs is compared and not what it works out beforehand
            let x = |at: usize| black_box(f64::from_bits(numbers[at]));
            let n = |at: usize| black_box(numbers[at] as usize);
            let mut c = CDouble { hi: x(0), lo: x(1) };
            match letter {
                "S" => two(CDouble::two_sum(x(0), x(1))),
                "H" => two(CDouble::split(x(0))),
                "P" => two(CDouble::two_product(x(0), x(1))),
                "a" => {
                    c.add(x(2));
                    pair(c)
                }
                "p" => {
                    c.add_product(x(2), x(3));
                    pair(c)
                }
                "s" => {
                    c.add_scaled(CDouble { hi: x(2), lo: x(3) }, x(4));
                    pair(c)
                }
                "n" => pair(c.neg()),
                "N" => pair(c.normalized()),
                "m" => one(c.abs_up()),
                "v" => one(c.value()),
                "u" => one(c.rounded(true)),
                "d" => one(c.rounded(false)),
                "A" => one(add_up(x(0), x(1))),
                "M" => one(mul_up(x(0), x(1))),
                "D" => one(distance_up(x(0), x(1))),
                "e" => one(compensated_error(n(0), n(1), x(2))),
                _ => panic!("no operation {letter}"),
            }
        }
    }
}

/// A finite double's size: whole digits, times a power of two.
fn digits(x: f64) -> (u128, i32) {
    let (field, low) = ((x.to_bits() >> 52 & 0x7FF) as i32, x.to_bits() & ((1 << 52) - 1));
    if field == 0 { (low.into(), -1074) } else { ((low | 1 << 52).into(), field - 1075) }
}

/// The least double not below the product of finite factors: +infinity past the largest, and a zero is +0.
fn least_not_below(a: f64, b: f64) -> f64 {
    let ((m, j), (n, k)) = (digits(a), digits(b));
    let (product, power) = (m * n, j + k);
    let negative = a.is_sign_negative() != b.is_sign_negative();
    // the power of two of the last digit that a double keeps: of the 53rd, or of the smallest double
    let last = (power + 75 - product.leading_zeros() as i32).max(-1074).max(power);
    let cut = (last - power).min(127);
    let kept = product >> cut;
    let up = !negative && kept << cut != product;
    // by one power of two at a time, which is exact up to the largest double
    let step = if last < 0 { 0.5 } else { 2.0 };
    let size = (0..last.abs()).fold((kept + up as u128) as f64, |x, _| x * step);
    if negative && size != 0.0 { -size.min(f64::MAX) } else { size }
}

const KINDS: [&str; 4] = ["vanished", "too small", "too large", "only in the sign of a zero"];

/// What request 5 promises of a line, where it says more than the Rust.
fn promised(letter: &str, numbers: &[u64]) -> Option<f64> {
    let [a, b] = [numbers[0], numbers[1]].map(f64::from_bits);
    (letter == "M" && a.is_finite() && b.is_finite()).then(|| least_not_below(a, b))
}

/// How the Rust's product differs from the promised one.
fn kind(rust: f64, promised: f64) -> usize {
    match rust.partial_cmp(&promised) {
        Some(Ordering::Equal) => 3,
        _ if rust == 0.0 => 0,
        Some(Ordering::Less) => 1,
        _ => 2,
    }
}

fn main() {
    let (mut compared, mut differ, mut left) = (0, 0, [0; KINDS.len()]);
    for line in std::io::read_to_string(std::io::stdin()).unwrap().lines() {
        let (letter, rest) = line.split_once(' ').unwrap();
        let numbers: Vec<u64> = rest.split(' ').map(|n| u64::from_str_radix(n, 16).unwrap()).collect();
        let mut answer = proof::table::answer(letter, &numbers);
        let mut whose = "Rust";
        if let Some(promised) = promised(letter, &numbers) {
            let rust = std::mem::replace(&mut answer, [promised.to_bits(), 0]);
            if rust != answer {
                left[kind(f64::from_bits(rust[0]), promised)] += 1;
                whose = "request 5";
            }
        }
        compared += (whose == "Rust") as u32;
        if answer != numbers[5..] {
            differ += 1;
            println!("{line}: {whose} has {:016X} {:016X}", answer[0], answer[1]);
        }
    }
    println!("{compared} answers compared with those of the Rust, {differ} differ");
    let all: u32 = left.iter().sum();
    let kinds: Vec<String> = left.iter().zip(KINDS).map(|(n, kind)| format!("{n} {kind}")).collect();
    println!("{all} products of finite factors left out, since the Rust's differ: {}", kinds.join(", "));
    // the table has such products
    if all == 0 {
        println!("none left out: this is not the table that request 5 asks for, or not the Rust");
    }
    std::process::exit((differ != 0 || compared == 0 || all == 0) as i32);
}
