//! Natural numbers of any size.

use std::cmp::Ordering;

const LIMB_BITS: usize = u64::BITS as usize;

/// Limbs in base 2^64, the least first. The topmost limb is never 0, so equal numbers have equal limbs.
#[derive(Clone, Debug, PartialEq, Eq)]
pub struct Natural {
    limbs: Vec<u64>,
}

impl From<u64> for Natural {
    fn from(value: u64) -> Natural {
        Natural::from_limbs(vec![value])
    }
}

impl Natural {
    /// The number with these limbs, the least first; zeros on top are allowed.
    pub fn from_limbs(limbs: Vec<u64>) -> Natural {
        let mut number = Natural { limbs };
        number.trim();
        number
    }

    fn trim(&mut self) {
        while self.limbs.last() == Some(&0) {
            self.limbs.pop();
        }
    }

    pub fn is_zero(&self) -> bool {
        self.limbs.is_empty()
    }

    /// How many binary digits the number has; 0 has none.
    pub fn bits(&self) -> usize {
        match self.limbs.last() {
            None => 0,
            Some(top) => self.limbs.len() * LIMB_BITS - top.leading_zeros() as usize,
        }
    }

    pub fn to_u64(&self) -> Option<u64> {
        match self.limbs[..] {
            [] => Some(0),
            [only] => Some(only),
            _ => None,
        }
    }

    pub fn sum(&self, other: &Natural) -> Natural {
        let (long, short) = if self.limbs.len() < other.limbs.len() { (other, self) } else { (self, other) };
        let mut limbs = Vec::with_capacity(long.limbs.len() + 1);
        let mut carry = 0;
        for (place, &limb) in long.limbs.iter().enumerate() {
            let sum = limb as u128 + short.limbs.get(place).copied().unwrap_or(0) as u128 + carry;
            limbs.push(sum as u64);
            carry = sum >> LIMB_BITS;
        }
        limbs.push(carry as u64);
        Natural::from_limbs(limbs)
    }

    /// This number less another that is not above it; panics on one that is.
    pub fn difference(&self, other: &Natural) -> Natural {
        let mut rest = self.clone();
        rest.take_away(other);
        rest
    }

    fn take_away(&mut self, other: &Natural) {
        assert!(other.limbs.len() <= self.limbs.len(), "a natural difference below 0");
        let mut borrow = false;
        for (place, limb) in self.limbs.iter_mut().enumerate() {
            let (less, below) = limb.overflowing_sub(other.limbs.get(place).copied().unwrap_or(0));
            let (rest, further) = less.overflowing_sub(borrow as u64);
            *limb = rest;
            borrow = below || further;
        }
        assert!(!borrow, "a natural difference below 0");
        self.trim();
    }

    pub fn product(&self, other: &Natural) -> Natural {
        let mut limbs = vec![0; self.limbs.len() + other.limbs.len()];
        for (start, &left) in self.limbs.iter().enumerate() {
            let mut carry = 0;
            for (place, &right) in other.limbs.iter().enumerate() {
                // At most (2^64 - 1)^2 + 2 (2^64 - 1) = 2^128 - 1: it cannot overflow.
                let sum = left as u128 * right as u128 + limbs[start + place] as u128 + carry;
                limbs[start + place] = sum as u64;
                carry = sum >> LIMB_BITS;
            }
            limbs[start + other.limbs.len()] = carry as u64;
        }
        Natural::from_limbs(limbs)
    }

    /// Quotient and remainder: long division as on paper, in base two, where each digit is one comparison.
    pub fn divided(&self, divisor: &Natural) -> (Natural, Natural) {
        assert!(!divisor.is_zero(), "a division by 0");
        let mut rest = self.clone();
        let Some(shift) = self.bits().checked_sub(divisor.bits()) else {
            return (Natural::from(0), rest);
        };
        let mut shifted = divisor.doubled(shift);
        let mut quotient = vec![0; shift / LIMB_BITS + 1];
        for digit in (0..=shift).rev() {
            if rest >= shifted {
                rest.take_away(&shifted);
                quotient[digit / LIMB_BITS] |= 1 << (digit % LIMB_BITS);
            }
            shifted.halve();
        }
        (Natural::from_limbs(quotient), rest)
    }

    /// The least whole number not below the quotient.
    pub fn quotient_raised(&self, divisor: &Natural) -> Natural {
        let (quotient, rest) = self.divided(divisor);
        if rest.is_zero() {
            quotient
        } else {
            quotient.sum(&Natural::from(1))
        }
    }

    fn doubled(&self, times: usize) -> Natural {
        let mut limbs = vec![0; times / LIMB_BITS];
        let mut carry = 0;
        for &limb in &self.limbs {
            let wide = (limb as u128) << (times % LIMB_BITS);
            limbs.push(wide as u64 | carry);
            carry = (wide >> LIMB_BITS) as u64;
        }
        limbs.push(carry);
        Natural::from_limbs(limbs)
    }

    fn halve(&mut self) {
        let mut carry = 0;
        for limb in self.limbs.iter_mut().rev() {
            let odd = *limb << (LIMB_BITS - 1);
            *limb = *limb >> 1 | carry;
            carry = odd;
        }
        self.trim();
    }
}

impl Ord for Natural {
    fn cmp(&self, other: &Natural) -> Ordering {
        let by_length = self.limbs.len().cmp(&other.limbs.len());
        by_length.then_with(|| self.limbs.iter().rev().cmp(other.limbs.iter().rev()))
    }
}

impl PartialOrd for Natural {
    fn partial_cmp(&self, other: &Natural) -> Option<Ordering> {
        Some(self.cmp(other))
    }
}
