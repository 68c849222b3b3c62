//! Exact numbers: whole numbers of any length times a power of two. Slow, so that only a part of the sheets are put to
//! them: they tell whether directed.rs rounds rightly, and what the exact gap is.
use crate::directed::parts;
use std::cmp::Ordering;

#[derive(Clone, Debug, Default)]
pub struct Exact {
    negative: bool,
    /// The lowest first; the last is not 0.
    digits: Vec<u64>,
    power: i32,
}

fn trimmed(mut digits: Vec<u64>) -> Vec<u64> {
    while digits.last() == Some(&0) {
        digits.pop();
    }
    digits
}

fn shifted(digits: &[u64], by: u32) -> Vec<u64> {
    let (places, bits) = ((by / 64) as usize, by % 64);
    let mut found = vec![0; places + digits.len() + 1];
    for (at, &digit) in digits.iter().enumerate() {
        let wide = (digit as u128) << bits;
        found[places + at] |= wide as u64;
        found[places + at + 1] |= (wide >> 64) as u64;
    }
    trimmed(found)
}

fn compared(a: &[u64], b: &[u64]) -> Ordering {
    a.len().cmp(&b.len()).then_with(|| a.iter().rev().cmp(b.iter().rev()))
}

fn added(a: &[u64], b: &[u64]) -> Vec<u64> {
    let mut found = Vec::new();
    let mut carry = 0;
    for at in 0..=a.len().max(b.len()) {
        let digit = |list: &[u64]| *list.get(at).unwrap_or(&0) as u128;
        let wide = digit(a) + digit(b) + carry;
        found.push(wide as u64);
        carry = wide >> 64;
    }
    trimmed(found)
}

/// Of the larger the smaller.
fn taken(a: &[u64], b: &[u64]) -> Vec<u64> {
    let mut found = Vec::new();
    let mut borrow = false;
    for at in 0..a.len() {
        let (less, first) = a[at].overflowing_sub(*b.get(at).unwrap_or(&0));
        let (less, second) = less.overflowing_sub(borrow as u64);
        borrow = first || second;
        found.push(less);
    }
    trimmed(found)
}

impl Exact {
    /// A finite double.
    pub fn of(x: f64) -> Self {
        let (whole, power) = parts(x);
        Exact { negative: whole < 0, digits: trimmed(vec![whole.unsigned_abs() as u64]), power }
    }

    pub fn is_zero(&self) -> bool {
        self.digits.is_empty()
    }

    pub fn sign(&self) -> i32 {
        match (self.is_zero(), self.negative) {
            (true, _) => 0,
            (false, true) => -1,
            (false, false) => 1,
        }
    }

    pub fn minus(mut self) -> Self {
        self.negative = !self.negative;
        self
    }

    pub fn plus(&self, other: &Exact) -> Self {
        if self.is_zero() {
            return other.clone();
        }
        if other.is_zero() {
            return self.clone();
        }
        let power = self.power.min(other.power);
        let a = shifted(&self.digits, (self.power - power) as u32);
        let b = shifted(&other.digits, (other.power - power) as u32);
        if self.negative == other.negative {
            return Exact { negative: self.negative, digits: added(&a, &b), power };
        }
        match compared(&a, &b) {
            Ordering::Less => Exact { negative: other.negative, digits: taken(&b, &a), power },
            _ => Exact { negative: self.negative, digits: taken(&a, &b), power },
        }
    }

    pub fn times(&self, other: &Exact) -> Self {
        let mut found = vec![0u64; self.digits.len() + other.digits.len() + 1];
        for (at, &a) in self.digits.iter().enumerate() {
            let mut carry = 0u128;
            for (up, &b) in other.digits.iter().enumerate() {
                let wide = a as u128 * b as u128 + found[at + up] as u128 + carry;
                found[at + up] = wide as u64;
                carry = wide >> 64;
            }
            found[at + other.digits.len()] = carry as u64;
        }
        Exact { negative: self.negative != other.negative, digits: trimmed(found), power: self.power + other.power }
    }

    /// Against a double that may be infinite.
    pub fn against(&self, x: f64) -> Ordering {
        match x {
            f64::INFINITY => Ordering::Less,
            f64::NEG_INFINITY => Ordering::Greater,
            _ => self.plus(&Exact::of(x).minus()).sign().cmp(&0),
        }
    }

    /// Whether a double is this number rounded up, or down, as document 01 says it: the least not below, or the greatest
    /// not above; +0 where it is 0.
    pub fn rounds_to(&self, x: f64, up: bool) -> bool {
        let (not_beyond, next) = if up { (Ordering::Less, x.next_down()) } else { (Ordering::Greater, x.next_up()) };
        let holds = |order: Ordering| order == not_beyond || order == Ordering::Equal;
        // the next double inward would be beyond
        holds(self.against(x)) && !holds(self.against(next)) && x.to_bits() != (-0.0f64).to_bits()
    }
}
