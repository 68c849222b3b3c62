//! Numbers by chance, and the kinds of doubles that sheets are made of.

pub const UNIT: f64 = f64::EPSILON / 2.0;

/// Sebastiano Vigna's splitmix64.
pub struct Rng(u64);

impl Rng {
    /// One of its own for each sheet, so that a sheet can be made again alone.
    pub fn of(seed: u64, sheet: u64) -> Self {
        let mut rng = Rng(seed ^ sheet.wrapping_mul(0xD134_2543_DE82_EF95));
        rng.next();
        rng
    }

    pub fn next(&mut self) -> u64 {
        self.0 = self.0.wrapping_add(0x9E37_79B9_7F4A_7C15);
        let z = (self.0 ^ (self.0 >> 30)).wrapping_mul(0xBF58_476D_1CE4_E5B9);
        let z = (z ^ (z >> 27)).wrapping_mul(0x94D0_49BB_1331_11EB);
        z ^ (z >> 31)
    }

    pub fn below(&mut self, n: usize) -> usize {
        (self.next() % n as u64) as usize
    }

    /// From low to high, both included.
    pub fn within(&mut self, low: i64, high: i64) -> i64 {
        low + (self.next() % (high - low + 1) as u64) as i64
    }

    pub fn percent(&mut self, n: usize) -> bool {
        self.below(100) < n
    }

    pub fn pick<T: Copy>(&mut self, of: &[T]) -> T {
        of[self.below(of.len())]
    }

    pub fn sign(&mut self) -> f64 {
        self.pick(&[1.0, -1.0])
    }

    pub fn flag(&mut self) -> u8 {
        self.pick(&[1, 1, 1, 2, 0x80, 0xFF])
    }
}

/// Where numbers are taken from.
#[derive(Clone, Copy, PartialEq)]
pub enum Kind {
    Whole,
    Ordinary,
    /// Every exponent.
    Wide,
    Huge,
    Tiny,
    /// Whole numbers of the smallest double, times a power of two: sums of these tie.
    Grains,
    /// About where Dekker's split overflows.
    Split,
    /// About the root of 2^-969, under which the product's low part is lost.
    Root,
    /// Any bits that are finite.
    Bits,
    Zero,
}
use Kind::*;

pub fn power(e: i64) -> f64 {
    if e < -1022 {
        f64::from_bits(1u64 << (e + 1074).max(0))
    } else {
        f64::from_bits(((e.min(1023) + 1023) as u64) << 52)
    }
}

/// So many doubles further out or in; stays finite.
pub fn ulps(x: f64, n: i64) -> f64 {
    let mut y = x;
    for _ in 0..n.abs() {
        y = if n > 0 { y.next_up() } else { y.next_down() };
    }
    if y.is_finite() { y } else { x }
}

pub fn number(rng: &mut Rng, kind: Kind) -> f64 {
    let fraction = match rng.below(10) {
        0 | 1 => 0,
        2 => (1 << 52) - 1,
        3 => 1,
        _ => rng.next() >> 12,
    };
    let scaled = |rng: &mut Rng, low, high| {
        let e = rng.within(low, high);
        rng.sign() * f64::from_bits(1023 << 52 | fraction) * power(e)
    };
    match kind {
        Zero => 0.0,
        Whole if rng.percent(2) => -0.0,
        Whole => rng.within(-4, 4) as f64,
        Ordinary => scaled(rng, -5, 5),
        Wide => scaled(rng, -1080, 1022),
        Huge => scaled(rng, 930, 1022),
        Tiny => scaled(rng, -1074, -940),
        Grains => rng.within(-9, 9) as f64 * power(-1074),
        Split => scaled(rng, 992, 1000),
        Root => scaled(rng, -486, -484),
        Bits => loop {
            let x = f64::from_bits(rng.next());
            if x.is_finite() {
                return x;
            }
        },
    }
}

pub fn ordered(a: f64, b: f64) -> (f64, f64) {
    if a <= b { (a, b) } else { (b, a) }
}
