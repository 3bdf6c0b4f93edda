//! Whole numbers of any size.

use std::{
    cmp::Ordering,
    ops::{Add, Mul, Neg, Sub},
};

/// A sign and digits of 64 bits, the lowest first and the highest not 0; 0 has no digits and is not below 0.
#[derive(Clone, Debug, PartialEq, Eq)]
pub struct Big {
    below: bool,
    digits: Vec<u64>,
}

impl Big {
    pub const ZERO: Self = Self {
        below: false,
        digits: Vec::new(),
    };

    fn new(below: bool, mut digits: Vec<u64>) -> Self {
        while digits.last() == Some(&0) {
            digits.pop();
        }
        Self {
            below: below && !digits.is_empty(),
            digits,
        }
    }

    /// -1, 0 or 1.
    pub fn sign(&self) -> i32 {
        match (self.below, self.digits.is_empty()) {
            (_, true) => 0,
            (true, _) => -1,
            (false, _) => 1,
        }
    }
}

impl From<i128> for Big {
    fn from(x: i128) -> Self {
        let size = x.unsigned_abs();
        Self::new(x < 0, vec![size as u64, (size >> 64) as u64])
    }
}

fn compared(p: &[u64], q: &[u64]) -> Ordering {
    let lengths = p.len().cmp(&q.len());
    lengths.then_with(|| p.iter().rev().cmp(q.iter().rev()))
}

fn added(p: &[u64], q: &[u64]) -> Vec<u64> {
    let digit = |of: &[u64], place: usize| u128::from(of.get(place).copied().unwrap_or(0));
    let mut carry = 0;
    let mut sum = Vec::with_capacity(p.len().max(q.len()) + 1);
    for place in 0..=p.len().max(q.len()) {
        let all = digit(p, place) + digit(q, place) + carry;
        sum.push(all as u64);
        carry = all >> 64;
    }
    sum
}

/// The first is not less than the second.
fn subtracted(p: &[u64], q: &[u64]) -> Vec<u64> {
    let mut borrowed = false;
    let mut rest = Vec::with_capacity(p.len());
    for (place, &digit) in p.iter().enumerate() {
        let (less, first) = digit.overflowing_sub(q.get(place).copied().unwrap_or(0));
        let (less, second) = less.overflowing_sub(u64::from(borrowed));
        borrowed = first || second;
        rest.push(less);
    }
    rest
}

impl Add for &Big {
    type Output = Big;
    fn add(self, other: &Big) -> Big {
        if self.below == other.below {
            return Big::new(self.below, added(&self.digits, &other.digits));
        }
        match compared(&self.digits, &other.digits) {
            Ordering::Less => Big::new(other.below, subtracted(&other.digits, &self.digits)),
            _ => Big::new(self.below, subtracted(&self.digits, &other.digits)),
        }
    }
}

impl Neg for &Big {
    type Output = Big;
    fn neg(self) -> Big {
        Big::new(!self.below, self.digits.clone())
    }
}

impl Sub for &Big {
    type Output = Big;
    fn sub(self, other: &Big) -> Big {
        self + &-other
    }
}

impl Mul for &Big {
    type Output = Big;
    fn mul(self, other: &Big) -> Big {
        let mut product = vec![0; self.digits.len() + other.digits.len()];
        for (place, &p) in self.digits.iter().enumerate() {
            let mut carry = 0;
            for (behind, &q) in other.digits.iter().enumerate() {
                let at = &mut product[place + behind];
                let all = u128::from(p) * u128::from(q) + u128::from(*at) + carry;
                *at = all as u64;
                carry = all >> 64;
            }
            product[place + other.digits.len()] = carry as u64;
        }
        Big::new(self.below != other.below, product)
    }
}

impl PartialOrd for Big {
    fn partial_cmp(&self, other: &Self) -> Option<Ordering> {
        Some(self.cmp(other))
    }
}

impl Ord for Big {
    fn cmp(&self, other: &Self) -> Ordering {
        (self - other).sign().cmp(&0)
    }
}
