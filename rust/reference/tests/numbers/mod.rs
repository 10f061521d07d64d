//! Numbers that look random and are the same in every run (Marsaglia's xorshift).

use reference::coefficients::{Coefficients, Inertia, FIRST_VALUES};
use std::ops::RangeInclusive;

pub struct Numbers(pub u64);

impl Numbers {
    pub fn next(&mut self) -> u64 {
        self.0 ^= self.0 << 13;
        self.0 ^= self.0 >> 7;
        self.0 ^= self.0 << 17;
        self.0
    }

    #[allow(dead_code, reason = "each test file takes what it needs")]
    pub fn below(&mut self, end: u32) -> u32 {
        ((self.next() >> 32) % u64::from(end)) as u32
    }

    /// The ends of the span are not rare.
    #[allow(dead_code, reason = "each test file takes what it needs")]
    pub fn within(&mut self, span: RangeInclusive<u32>) -> u32 {
        let (least, greatest) = span.into_inner();
        let between = least + self.below(greatest - least + 1);
        [least, greatest, between][self.below(6).min(2) as usize]
    }

    /// Document 02, Card 5: a train's own.
    #[allow(dead_code, reason = "each test file takes what it needs")]
    pub fn inertia(&mut self) -> Inertia {
        let [ki1, ki2, ki3] = [80..=120, 80..=120, 80..=120].map(|span| self.within(span));
        Inertia { ki1, ki2, ki3, i1: self.within(0..=35), i2: self.within(0..=35) as i32 - 35 }
    }

    #[allow(dead_code, reason = "each test file takes what it needs")]
    pub fn own_coefficients(&mut self) -> Coefficients {
        Coefficients {
            dt: self.within(0..=200),
            h: self.within(0..=50),
            kr: self.within(30..=150),
            cr: self.within(0..=10),
            nc: self.within(0..=20) as i32 - 10,
            vc: 5 * self.within(0..=80),
            inertia: self.inertia(),
        }
    }

    /// The first values or a train's own.
    #[allow(dead_code, reason = "each test file takes what it needs")]
    pub fn coefficients(&mut self) -> Coefficients {
        [FIRST_VALUES, self.own_coefficients()][self.below(2) as usize]
    }
}
