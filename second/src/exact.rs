//! Fractions without any width, for the tests' solver: whole numbers of any size and their quotients.

use crate::fraction::Fraction;
use std::cmp::Ordering;
use std::ops::{Add, Div, Mul, Neg, Sub};

/// Digits to the base 2^32, least first, none zero at the end; zero has none.
type Digits = Vec<u32>;

const DIGIT: u32 = 32;

fn trimmed(mut x: Digits) -> Digits {
    while x.last() == Some(&0) {
        x.pop();
    }
    x
}

fn compare(x: &[u32], y: &[u32]) -> Ordering {
    x.len().cmp(&y.len()).then_with(|| x.iter().rev().cmp(y.iter().rev()))
}

fn sum(x: &[u32], y: &[u32]) -> Digits {
    let mut result = Vec::with_capacity(x.len().max(y.len()) + 1);
    let mut carry = 0u64;
    for position in 0..x.len().max(y.len()) {
        let digit = |z: &[u32]| z.get(position).copied().unwrap_or(0) as u64;
        carry += digit(x) + digit(y);
        result.push(carry as u32);
        carry >>= DIGIT;
    }
    result.push(carry as u32);
    trimmed(result)
}

/// x - y, where x is not the smaller.
fn difference(x: &[u32], y: &[u32]) -> Digits {
    let mut result = Vec::with_capacity(x.len());
    let mut borrow = 0i64;
    for (position, &digit) in x.iter().enumerate() {
        let rest = digit as i64 - y.get(position).copied().unwrap_or(0) as i64 - borrow;
        borrow = (rest < 0) as i64;
        result.push(rest as u32);
    }
    trimmed(result)
}

fn product(x: &[u32], y: &[u32]) -> Digits {
    let mut result = vec![0u32; x.len() + y.len()];
    for (i, &p) in x.iter().enumerate() {
        let mut carry = 0u64;
        for (j, &q) in y.iter().enumerate() {
            carry += p as u64 * q as u64 + result[i + j] as u64;
            result[i + j] = carry as u32;
            carry >>= DIGIT;
        }
        result[i + y.len()] = carry as u32;
    }
    trimmed(result)
}

fn small(x: &[u32]) -> Option<u128> {
    (x.len() <= 4).then(|| x.iter().rev().fold(0, |number, &digit| number << DIGIT | digit as u128))
}

fn digits(mut number: u128) -> Digits {
    let mut result = vec![];
    while number > 0 {
        result.push(number as u32);
        number >>= DIGIT;
    }
    result
}

fn shifted_left(x: &[u32], bits: u32) -> Digits {
    let mut result = vec![];
    let mut carry = 0u64;
    for &digit in x {
        carry |= (digit as u64) << bits;
        result.push(carry as u32);
        carry >>= DIGIT;
    }
    result.push(carry as u32);
    result
}

/// Quotient and remainder, y not zero; long division with estimated digits.
fn divided(x: &[u32], y: &[u32]) -> (Digits, Digits) {
    if compare(x, y) == Ordering::Less {
        return (vec![], x.to_vec());
    }
    if let (Some(p), Some(q)) = (small(x), small(y)) {
        return (digits(p / q), digits(p % q));
    }
    if let [single] = y {
        return divided_by_digit(x, *single);
    }
    // Both are shifted so that y's highest bit is set; the shift is taken back from the remainder.
    let shift = y[y.len() - 1].leading_zeros();
    let y = trimmed(shifted_left(y, shift));
    let mut rest = shifted_left(x, shift);
    let (high, next) = (y[y.len() - 1] as u64, y[y.len() - 2] as u64);
    let mut quotient = vec![0u32; rest.len() - y.len()];
    for position in (0..quotient.len()).rev() {
        let top = position + y.len();
        let leading = (rest[top] as u64) << DIGIT | rest[top - 1] as u64;
        let (mut guess, mut left) = (leading / high, leading % high);
        while guess >> DIGIT != 0 || guess * next > (left << DIGIT | rest[top - 2] as u64) {
            guess -= 1;
            left += high;
            if left >> DIGIT != 0 {
                break;
            }
        }
        if subtract_multiple(&mut rest[position..=top], &y, guess) {
            guess -= 1;
            add_back(&mut rest[position..=top], &y);
        }
        quotient[position] = guess as u32;
    }
    (trimmed(quotient), trimmed(shifted_right(&rest, shift)))
}

fn divided_by_digit(x: &[u32], y: u32) -> (Digits, Digits) {
    let mut quotient = vec![0u32; x.len()];
    let mut rest = 0u64;
    for position in (0..x.len()).rev() {
        rest = rest << DIGIT | x[position] as u64;
        quotient[position] = (rest / y as u64) as u32;
        rest %= y as u64;
    }
    (trimmed(quotient), digits(rest as u128))
}

fn shifted_right(x: &[u32], bits: u32) -> Digits {
    let high = |position: usize| x.get(position + 1).copied().unwrap_or(0) as u64;
    let each = x.iter().enumerate();
    each.map(|(position, &digit)| ((high(position) << DIGIT | digit as u64) >> bits) as u32).collect()
}

/// rest - guess × y in place; true if that fell below zero.
fn subtract_multiple(rest: &mut [u32], y: &[u32], guess: u64) -> bool {
    let (mut carry, mut borrow) = (0u64, 0i64);
    for position in 0..rest.len() {
        carry += guess * y.get(position).copied().unwrap_or(0) as u64;
        let left = rest[position] as i64 - (carry as u32) as i64 - borrow;
        rest[position] = left as u32;
        borrow = (left < 0) as i64;
        carry >>= DIGIT;
    }
    borrow > 0
}

fn add_back(rest: &mut [u32], y: &[u32]) {
    let mut carry = 0u64;
    for (position, digit) in rest.iter_mut().enumerate() {
        carry += *digit as u64 + y.get(position).copied().unwrap_or(0) as u64;
        *digit = carry as u32;
        carry >>= DIGIT;
    }
}

fn greatest_divisor(x: &[u32], y: &[u32]) -> Digits {
    let (mut large, mut little) = (x.to_vec(), y.to_vec());
    while !little.is_empty() {
        let rest = divided(&large, &little).1;
        large = std::mem::replace(&mut little, rest);
    }
    large
}

/// An exact fraction in lowest terms; zero is not negative and has denominator 1.
#[derive(Clone, PartialEq, Eq, Debug)]
pub struct Exact {
    negative: bool,
    top: Digits,
    bottom: Digits,
}

impl Exact {
    pub fn whole(number: i64) -> Exact {
        Exact { negative: number < 0, top: digits(number.unsigned_abs() as u128), bottom: vec![1] }
    }

    pub fn zero() -> Exact {
        Exact::whole(0)
    }

    pub fn is_zero(&self) -> bool {
        self.top.is_empty()
    }

    pub fn is_negative(&self) -> bool {
        self.negative
    }

    pub fn is_positive(&self) -> bool {
        !self.negative && !self.is_zero()
    }

    fn reduced(negative: bool, top: Digits, bottom: Digits) -> Exact {
        if top.is_empty() {
            return Exact::zero();
        }
        let divisor = greatest_divisor(&top, &bottom);
        if divisor == [1] {
            return Exact { negative, top, bottom };
        }
        let (top, bottom) = (divided(&top, &divisor).0, divided(&bottom, &divisor).0);
        Exact { negative, top, bottom }
    }

    /// The fraction of 01, if it fits.
    pub fn fraction(&self) -> Option<Fraction> {
        let (top, bottom) = (small(&self.top)?, small(&self.bottom)?);
        let (top, bottom) = (i128::try_from(top).ok()?, i128::try_from(bottom).ok()?);
        Fraction::fitted(if self.negative { -top } else { top }, bottom)
    }
}

impl From<Fraction> for Exact {
    fn from(fraction: Fraction) -> Exact {
        let (numerator, denominator) = fraction.words();
        Exact { bottom: vec![denominator as u32], ..Exact::whole(numerator as i64) }
    }
}

impl Neg for &Exact {
    type Output = Exact;

    fn neg(self) -> Exact {
        Exact { negative: !self.negative && !self.is_zero(), ..self.clone() }
    }
}

impl Add for &Exact {
    type Output = Exact;

    fn add(self, other: &Exact) -> Exact {
        if self.is_zero() {
            return other.clone();
        }
        let (x, y) = (product(&self.top, &other.bottom), product(&other.top, &self.bottom));
        let bottom = product(&self.bottom, &other.bottom);
        if self.negative == other.negative {
            return Exact::reduced(self.negative, sum(&x, &y), bottom);
        }
        match compare(&x, &y) {
            Ordering::Less => Exact::reduced(other.negative, difference(&y, &x), bottom),
            _ => Exact::reduced(self.negative, difference(&x, &y), bottom),
        }
    }
}

impl Sub for &Exact {
    type Output = Exact;

    fn sub(self, other: &Exact) -> Exact {
        self + &-other
    }
}

impl Mul for &Exact {
    type Output = Exact;

    fn mul(self, other: &Exact) -> Exact {
        if self.is_zero() || other.is_zero() {
            return Exact::zero();
        }
        let bottom = product(&self.bottom, &other.bottom);
        Exact::reduced(self.negative != other.negative, product(&self.top, &other.top), bottom)
    }
}

impl Div for &Exact {
    type Output = Exact;

    /// The divisor must not be zero.
    fn div(self, other: &Exact) -> Exact {
        assert!(!other.is_zero(), "division by zero");
        self * &Exact { negative: other.negative, top: other.bottom.clone(), bottom: other.top.clone() }
    }
}

impl PartialOrd for Exact {
    fn partial_cmp(&self, other: &Exact) -> Option<Ordering> {
        Some(self.cmp(other))
    }
}

impl Ord for Exact {
    fn cmp(&self, other: &Exact) -> Ordering {
        let rest = self - other;
        if rest.is_negative() {
            Ordering::Less
        } else if rest.is_zero() {
            Ordering::Equal
        } else {
            Ordering::Greater
        }
    }
}

#[cfg(test)]
mod tests {
    use super::*;
    use crate::draw::Draw;

    fn random_digits(draw: &mut Draw) -> Digits {
        let count = draw.below(9);
        let mut result = vec![];
        for _ in 0..count {
            let any = draw.word() as u32;
            result.push(draw.of(&[0, 1, u32::MAX, u32::MAX - 1, 1 << 31, any]));
        }
        trimmed(result)
    }

    /// quotient × y + remainder = x, remainder < y
    #[test]
    fn division() {
        let mut draw = Draw::new(7);
        for _ in 0..20000 {
            let (x, y) = (random_digits(&mut draw), random_digits(&mut draw));
            if y.is_empty() {
                continue;
            }
            let (quotient, rest) = divided(&x, &y);
            assert_eq!(compare(&rest, &y), Ordering::Less);
            assert_eq!(sum(&product(&quotient, &y), &rest), x);
            assert_eq!(difference(&sum(&x, &y), &y), x);
        }
    }

    /// Agrees with the fractions of 01 wherever those fit.
    #[test]
    fn agrees_with_fractions() {
        let mut draw = Draw::new(8);
        for _ in 0..20000 {
            let mut one = || Fraction::fitted(draw.word() as i128 >> draw.below(31), draw.within(1, 99999) as i128);
            let (Some(x), Some(y)) = (one(), one()) else { continue };
            let (p, q) = (Exact::from(x), Exact::from(y));
            assert_eq!((&p + &q).fraction(), x.plus(y));
            assert_eq!((&p - &q).fraction(), x.minus(y));
            assert_eq!((&p * &q).fraction(), x.times(y));
            if !y.is_zero() {
                assert_eq!((&p / &q).fraction(), x.over(y));
            }
            assert_eq!(p.cmp(&q), x.cmp(&y));
            assert_eq!(&p - &p, Exact::zero());
            assert_eq!(&-&p + &p, Exact::zero());
        }
    }
}
