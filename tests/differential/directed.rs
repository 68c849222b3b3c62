//! Sums and products of finite doubles rounded down or up, in whole numbers.
//!
//! Document 01: "the sum or product rounded up is the least double not below the exact value; rounded down, the greatest
//! not above. A zero answer is +0. Up, past the largest double MAX, gives +infinity; below −MAX, −MAX; down mirrors this.
//! An infinite running sum stays infinite."

/// A finite double: a whole number, and the power of two that it is multiplied with.
pub fn parts(x: f64) -> (i128, i32) {
    let bits = x.to_bits();
    let field = (bits >> 52 & 0x7FF) as i32;
    let fraction = (bits & ((1 << 52) - 1)) as i128;
    let (whole, power) = if field == 0 { (fraction, -1074) } else { (fraction | 1 << 52, field - 1075) };
    (if bits >> 63 == 1 { -whole } else { whole }, power)
}

/// A whole number times a power of two, brought to a double.
fn rounded(whole: i128, power: i32, up: bool) -> f64 {
    if whole == 0 {
        return 0.0;
    }
    let magnitude = whole.unsigned_abs();
    let away_from_zero = up == (whole > 0);
    // doubles of this size lie 2^step apart
    let length = 128 - magnitude.leading_zeros() as i32;
    let step = (power + length - 53).max(-1074);
    let steps = if step <= power {
        magnitude << (power - step)
    } else {
        let cut = (step - power) as u32;
        let below = magnitude.checked_shr(cut).unwrap_or(0);
        let exact = below.checked_shl(cut).unwrap_or(0) == magnitude;
        below + (away_from_zero && !exact) as u128
    };
    // the leading bit, which only a subnormal lacks, counts one in the field above
    let bits = ((step + 1074) as u128) * (1 << 52) + steps;
    let size = if bits <= f64::MAX.to_bits() as u128 {
        f64::from_bits(bits as u64)
    } else if away_from_zero {
        f64::INFINITY
    } else {
        f64::MAX
    };
    if whole < 0 && size != 0.0 { -size } else { size }
}

/// An infinite term makes the running sum infinite; in document 01's steps it never meets one of the other sign.
pub fn sum(a: f64, b: f64, up: bool) -> f64 {
    if a.is_infinite() {
        return a;
    }
    if b.is_infinite() {
        return b;
    }
    let (mut large, mut small) = (parts(a), parts(b));
    if large.1 < small.1 {
        (large, small) = (small, large);
    }
    let apart = large.1 - small.1;
    if apart <= 70 {
        rounded((large.0 << apart) + small.0, small.1, up)
    } else {
        // the smaller is less than half a step of the larger, which is not subnormal: its sign says enough
        rounded((large.0 << 60) + small.0.signum(), large.1 - 60, up)
    }
}

pub fn product(a: f64, b: f64, up: bool) -> f64 {
    let ((a, m), (b, n)) = (parts(a), parts(b));
    rounded(a * b, m + n, up)
}
