//! Exact signed fractions.

use crate::natural::Natural;
use std::borrow::Borrow;
use std::cmp::Ordering;
use std::ops::{Add, Div, Mul, Sub};

/// A value as the papers print it: numerator and denominator, so that 1,30 is (130, 100).
pub type Printed = (i64, u64);

/// Never reduced: the numbers stay short here, and a common divisor would cost more than it saves.
/// The denominator is above 0; zero is not negative.
#[derive(Clone, Debug)]
pub struct Fraction {
    negative: bool,
    numerator: Natural,
    denominator: Natural,
}

impl From<Printed> for Fraction {
    fn from((numerator, denominator): Printed) -> Fraction {
        Fraction::new(numerator < 0, numerator.unsigned_abs().into(), denominator.into())
    }
}

impl From<u32> for Fraction {
    fn from(whole: u32) -> Fraction {
        Fraction::from((i64::from(whole), 1))
    }
}

impl Fraction {
    pub fn new(negative: bool, numerator: Natural, denominator: Natural) -> Fraction {
        assert!(!denominator.is_zero(), "a fraction over 0");
        Fraction { negative: negative && !numerator.is_zero(), numerator, denominator }
    }

    pub fn is_zero(&self) -> bool {
        self.numerator.is_zero()
    }

    /// The least whole number not below this fraction; panics on one that 64 bits cannot hold.
    pub fn raised(&self) -> i64 {
        // Below 0 the least whole number not below lies towards 0, so there the magnitude is cut off.
        let magnitude = if self.negative {
            self.numerator.divided(&self.denominator).0
        } else {
            self.numerator.quotient_raised(&self.denominator)
        };
        let whole = magnitude.to_u64().and_then(|magnitude| i64::try_from(magnitude).ok());
        let whole = whole.expect("a whole number of at most 63 bits");
        if self.negative {
            -whole
        } else {
            whole
        }
    }

    fn negated(&self) -> Fraction {
        Fraction::new(!self.negative, self.numerator.clone(), self.denominator.clone())
    }

    fn plus(&self, other: &Fraction) -> Fraction {
        // Adding nothing must not lengthen the denominator.
        if self.is_zero() {
            return other.clone();
        }
        if other.is_zero() {
            return self.clone();
        }
        let left = self.numerator.product(&other.denominator);
        let right = other.numerator.product(&self.denominator);
        let denominator = self.denominator.product(&other.denominator);
        if self.negative == other.negative {
            Fraction::new(self.negative, left.sum(&right), denominator)
        } else if left >= right {
            Fraction::new(self.negative, left.difference(&right), denominator)
        } else {
            Fraction::new(other.negative, right.difference(&left), denominator)
        }
    }

    fn minus(&self, other: &Fraction) -> Fraction {
        self.plus(&other.negated())
    }

    fn times(&self, other: &Fraction) -> Fraction {
        let numerator = self.numerator.product(&other.numerator);
        Fraction::new(self.negative != other.negative, numerator, self.denominator.product(&other.denominator))
    }

    fn over(&self, other: &Fraction) -> Fraction {
        assert!(!other.is_zero(), "a division by 0");
        let numerator = self.numerator.product(&other.denominator);
        Fraction::new(self.negative != other.negative, numerator, self.denominator.product(&other.numerator))
    }
}

impl Ord for Fraction {
    fn cmp(&self, other: &Fraction) -> Ordering {
        let left = self.numerator.product(&other.denominator);
        let right = other.numerator.product(&self.denominator);
        match (self.negative, other.negative) {
            (false, false) => left.cmp(&right),
            (false, true) => Ordering::Greater,
            (true, false) => Ordering::Less,
            (true, true) => right.cmp(&left),
        }
    }
}

impl PartialOrd for Fraction {
    fn partial_cmp(&self, other: &Fraction) -> Option<Ordering> {
        Some(self.cmp(other))
    }
}

impl PartialEq for Fraction {
    fn eq(&self, other: &Fraction) -> bool {
        self.cmp(other) == Ordering::Equal
    }
}

impl Eq for Fraction {}

/// Each sign for owned and borrowed fractions alike, so that the formulas read as printed.
macro_rules! sign {
    ($trait:ident, $sign:ident, $method:ident) => {
        impl<R: Borrow<Fraction>> $trait<R> for &Fraction {
            type Output = Fraction;
            fn $sign(self, other: R) -> Fraction {
                self.$method(other.borrow())
            }
        }
        impl<R: Borrow<Fraction>> $trait<R> for Fraction {
            type Output = Fraction;
            fn $sign(self, other: R) -> Fraction {
                self.$method(other.borrow())
            }
        }
    };
}

sign!(Add, add, plus);
sign!(Sub, sub, minus);
sign!(Mul, mul, times);
sign!(Div, div, over);
