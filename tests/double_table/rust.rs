//! Holds the table's answers for the operations that Rust's library has to that library, bit for bit, a NaN counted as one.
//!
//!     rustc -O -o rust rust.rs && ./rust < table
use std::hint::black_box;
use std::io::{read_to_string, stdin};

fn bits(x: f64) -> u64 {
    if x.is_nan() { 0x7FF8_0000_0000_0000 } else { x.to_bits() }
}

fn main() {
    let (mut compared, mut differ) = (0, 0);
    for line in read_to_string(stdin()).unwrap().lines() {
        let words: Vec<&str> = line.split(' ').collect();
        let number = |at: usize| u64::from_str_radix(words[at], 16).unwrap();
        // hidden from the compiler, so that what runs is compared and not what it works out beforehand
        let a = black_box(f64::from_bits(number(1)));
        let b = black_box(f64::from_bits(number(2)));
        let answer = match words[0] {
            "a" => bits(a.abs()),
            "f" => a.is_finite() as u64,
            "u" => bits(a.next_up()),
            "d" => bits(a.next_down()),
            "M" => bits(a.max(b)),
            "m" => bits(a.min(b)),
            _ => continue,
        };
        compared += 1;
        if answer != number(3) {
            differ += 1;
            println!("{line}: Rust has {answer:016X}");
        }
    }
    println!("{compared} answers compared with Rust's, {differ} differ");
    std::process::exit((differ != 0 || compared == 0) as i32);
}
