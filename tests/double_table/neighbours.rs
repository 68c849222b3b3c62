//! Writes lines of the edge table with the answers of Rust's library: next up and next down of every power of two and the
//! two doubles beside it, of both signs, and of as many random patterns as are asked for.
//!
//!     rustc -O -o neighbours neighbours.rs && ./neighbours 1000000 > table
use std::io::{BufWriter, Write, stdout};

fn bits(x: f64) -> u64 {
    if x.is_nan() { 0x7FF8_0000_0000_0000 } else { x.to_bits() }
}

/// 2^(k - 1074), whose digits are counted from the smallest subnormal on.
fn power(k: u64) -> u64 {
    if k < 52 { 1 << k } else { (k - 51) << 52 }
}

fn main() {
    let count: u64 = std::env::args().nth(1).and_then(|word| word.parse().ok()).expect("how many random patterns");
    let mut out = BufWriter::new(stdout());
    let mut line = |b: u64| {
        let x = f64::from_bits(b);
        let (up, down) = (bits(x.next_up()), bits(x.next_down()));
        writeln!(out, "u {b:016X} {b:016X} {up:016X}\nd {b:016X} {b:016X} {down:016X}").unwrap();
    };
    for k in 0..2098 {
        for b in [power(k) - 1, power(k), power(k) + 1] {
            line(b);
            line(b | 1 << 63);
        }
    }
    let mut state = 1u64;
    for _ in 0..count {
        // xorshift64*
        state ^= state >> 12;
        state ^= state << 25;
        state ^= state >> 27;
        line(state.wrapping_mul(0x2545_F491_4F6C_DD1D));
    }
}
