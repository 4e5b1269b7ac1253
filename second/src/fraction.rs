//! Exact fractions with the width limit of 01, "The problem and its figures", and bounds with their marks.

use std::cmp::Ordering;

/// The greatest numerator (and, with a minus sign, the least) and the greatest denominator.
pub const WIDEST: i128 = 2_147_483_647;

/// A fraction in form: lowest terms, denominator at least 1, zero as 0 over 1, both parts within the width.
/// Lowest terms make equal fractions equal words, so the derived equality is exact.
#[derive(Clone, Copy, PartialEq, Eq, Debug)]
pub struct Fraction {
    numerator: i32,
    denominator: i32,
}

/// Greatest common divisor of two numbers not below zero.
fn greatest_divisor(x: i128, y: i128) -> i128 {
    let (mut large, mut small) = (x, y);
    while small != 0 {
        (large, small) = (small, large % small);
    }
    large
}

impl Fraction {
    pub const ZERO: Fraction = Fraction { numerator: 0, denominator: 1 };
    pub const ONE: Fraction = Fraction { numerator: 1, denominator: 1 };

    /// "Fits" means that the fully reduced result is such a fraction. None also for a denominator 0.
    pub fn fitted(numerator: i128, denominator: i128) -> Option<Fraction> {
        if denominator == 0 {
            return None;
        }
        let divisor = greatest_divisor(numerator.abs(), denominator.abs()) * denominator.signum();
        let (top, bottom) = (numerator / divisor, denominator / divisor);
        if top.abs() > WIDEST || bottom > WIDEST {
            return None;
        }
        Some(Fraction { numerator: top as i32, denominator: bottom as i32 })
    }

    /// The words as they stand, if they are a fraction in form.
    pub fn read(numerator: i32, denominator: i32) -> Option<Fraction> {
        let read = Fraction { numerator, denominator };
        if Fraction::fitted(read.top(), read.bottom()) == Some(read) {
            Some(read)
        } else {
            None
        }
    }

    /// The whole number over 1, if it fits.
    pub fn whole(number: i64) -> Option<Fraction> {
        Fraction::fitted(number as i128, 1)
    }

    pub fn numerator(self) -> i32 {
        self.numerator
    }

    pub fn denominator(self) -> i32 {
        self.denominator
    }

    /// Numerator and denominator.
    pub fn words(self) -> (i32, i32) {
        (self.numerator, self.denominator)
    }

    fn top(self) -> i128 {
        self.numerator as i128
    }

    fn bottom(self) -> i128 {
        self.denominator as i128
    }

    pub fn plus(self, other: Fraction) -> Option<Fraction> {
        let top = self.top() * other.bottom() + other.top() * self.bottom();
        Fraction::fitted(top, self.bottom() * other.bottom())
    }

    pub fn minus(self, other: Fraction) -> Option<Fraction> {
        let top = self.top() * other.bottom() - other.top() * self.bottom();
        Fraction::fitted(top, self.bottom() * other.bottom())
    }

    pub fn times(self, other: Fraction) -> Option<Fraction> {
        Fraction::fitted(self.top() * other.top(), self.bottom() * other.bottom())
    }

    /// The quotient; one by zero is None.
    pub fn over(self, other: Fraction) -> Option<Fraction> {
        Fraction::fitted(self.top() * other.bottom(), self.bottom() * other.top())
    }

    /// The range is symmetric, so this always fits.
    pub fn negated(self) -> Fraction {
        Fraction { numerator: -self.numerator, denominator: self.denominator }
    }

    pub fn is_zero(self) -> bool {
        self.numerator == 0
    }

    pub fn is_positive(self) -> bool {
        self.numerator > 0
    }

    pub fn is_negative(self) -> bool {
        self.numerator < 0
    }
}

impl PartialOrd for Fraction {
    fn partial_cmp(&self, other: &Fraction) -> Option<Ordering> {
        Some(self.cmp(other))
    }
}

/// Zero.
impl Default for Fraction {
    fn default() -> Fraction {
        Fraction::ZERO
    }
}

/// "Comparison is always exact."
impl Ord for Fraction {
    fn cmp(&self, other: &Fraction) -> Ordering {
        (self.top() * other.bottom()).cmp(&(other.top() * self.bottom()))
    }
}

/// A bound: a fraction or one of the two marks. The derived order is the one order over all of them:
/// an absent lower bound below everything, an absent upper bound above everything.
#[derive(Clone, Copy, PartialEq, Eq, PartialOrd, Ord, Debug)]
pub enum Bound {
    AbsentLower,
    Finite(Fraction),
    AbsentUpper,
}

impl Bound {
    /// A fraction in form or the mark -1 over 0.
    pub fn read_lower(numerator: i32, denominator: i32) -> Option<Bound> {
        match (numerator, denominator) {
            (-1, 0) => Some(Bound::AbsentLower),
            _ => Fraction::read(numerator, denominator).map(Bound::Finite),
        }
    }

    /// A fraction in form or the mark 1 over 0.
    pub fn read_upper(numerator: i32, denominator: i32) -> Option<Bound> {
        match (numerator, denominator) {
            (1, 0) => Some(Bound::AbsentUpper),
            _ => Fraction::read(numerator, denominator).map(Bound::Finite),
        }
    }

    /// A fraction in form or either mark.
    pub fn read(numerator: i32, denominator: i32) -> Option<Bound> {
        Bound::read_lower(numerator, denominator).or(Bound::read_upper(numerator, denominator))
    }

    /// Numerator and denominator, marks as they are written.
    pub fn words(self) -> (i32, i32) {
        match self {
            Bound::AbsentLower => (-1, 0),
            Bound::Finite(fraction) => fraction.words(),
            Bound::AbsentUpper => (1, 0),
        }
    }

    pub fn finite(self) -> Option<Fraction> {
        match self {
            Bound::Finite(fraction) => Some(fraction),
            _ => None,
        }
    }
}

#[cfg(test)]
mod tests {
    use super::*;

    fn f(numerator: i32, denominator: i32) -> Fraction {
        Fraction::read(numerator, denominator).expect("in form")
    }

    /// Instance J of 01.
    #[test]
    fn instance_j() {
        assert_eq!(f(2147483647, 1).plus(Fraction::ONE), None);
        assert_eq!(f(1, 2).plus(f(1, 2)), Some(Fraction::ONE));
        assert_eq!(f(1, 2).plus(f(1, 2)).map(Fraction::words), Some((1, 1)));
    }

    #[test]
    fn form() {
        assert!(Fraction::read(2147483647, 2147483646).is_some());
        assert!(Fraction::read(-2147483647, 1).is_some());
        assert!(Fraction::read(0, 1).is_some());
        for (numerator, denominator) in
            [(0, 2), (0, -1), (0, 0), (2, 4), (1, -1), (1, 0), (-1, 0), (-2147483648, 1), (1, -2147483648)]
        {
            assert!(Fraction::read(numerator, denominator).is_none(), "{numerator}/{denominator}");
        }
    }

    #[test]
    fn width_of_each_operation() {
        assert_eq!(f(-2147483647, 1).minus(Fraction::ONE), None);
        assert_eq!(f(-2147483647, 1).negated(), f(2147483647, 1));
        assert_eq!(f(1, 65536).times(f(1, 32768)), None);
        assert_eq!(f(1, 46341).times(f(1, 46340)), Some(f(1, 2147441940)));
        assert_eq!(f(1, 2147483647).over(f(1, 2147483647)), Some(Fraction::ONE));
        assert_eq!(f(2147483647, 2).over(f(-1, 2)), Some(f(-2147483647, 1)));
        assert_eq!(Fraction::ONE.over(Fraction::ZERO), None);
        assert_eq!(Fraction::ZERO.over(Fraction::ZERO), None);
        assert_eq!(Fraction::ZERO.over(f(-3, 7)).map(Fraction::words), Some((0, 1)));
        assert_eq!(f(1, 2).minus(f(1, 2)).map(Fraction::words), Some((0, 1)));
    }

    #[test]
    fn marks_and_order() {
        assert_eq!(Bound::read_lower(-1, 0), Some(Bound::AbsentLower));
        assert_eq!(Bound::read_lower(1, 0), None);
        assert_eq!(Bound::read_upper(1, 0), Some(Bound::AbsentUpper));
        assert_eq!(Bound::read_upper(-1, 0), None);
        let ascending = [
            Bound::AbsentLower,
            Bound::Finite(f(-2147483647, 1)),
            Bound::Finite(f(-1, 2147483647)),
            Bound::Finite(Fraction::ZERO),
            Bound::Finite(f(2147483646, 2147483647)),
            Bound::Finite(Fraction::ONE),
            Bound::Finite(f(2147483647, 2147483646)),
            Bound::Finite(f(2147483647, 1)),
            Bound::AbsentUpper,
        ];
        for (i, x) in ascending.iter().enumerate() {
            for (j, y) in ascending.iter().enumerate() {
                assert_eq!(x < y, i < j);
                assert_eq!(x == y, i == j);
            }
        }
    }
}
