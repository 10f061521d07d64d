//! The coefficients that a fleet may have of its own (document 02, Card 5): document 002's first values, spans and steps.

use crate::fraction::Fraction;
use std::ops::RangeInclusive;

/// Document 002's spans, in the units of the fields: sections 7.1, 7, 7.3.3, 7.3.1, 7.3.2 twice, and 7.2.
/// The units are the steps too, but for VC.
const D_T: RangeInclusive<u32> = 0..=200;
const H: RangeInclusive<u32> = 0..=50;
const K_R: RangeInclusive<u32> = 30..=150;
const C_R: RangeInclusive<u32> = 0..=10;
const N_C: RangeInclusive<i32> = -10..=10;
const V_C: RangeInclusive<u32> = 0..=400;
const V_C_STEP: u32 = 5;
const K_I: RangeInclusive<u32> = 80..=120;
const I_1: RangeInclusive<u32> = 0..=35;
const I_2: RangeInclusive<i32> = -35..=0;

/// Section 7.2: Ki1, Ki2 and Ki3 in hundredths, and the slopes i1 and i2, in per mille, that part them.
#[derive(Clone, Copy, Debug, PartialEq, Eq)]
pub struct Inertia {
    pub ki1: u32,
    pub ki2: u32,
    pub ki3: u32,
    pub i1: u32,
    pub i2: i32,
}

/// Dt, Kr and cr in hundredths, h in tenths of a second, nC in thousandths per km/h, VC in km/h.
#[derive(Clone, Copy, Debug, PartialEq, Eq)]
pub struct Coefficients {
    pub dt: u32,
    pub h: u32,
    pub kr: u32,
    pub cr: u32,
    pub nc: i32,
    pub vc: u32,
    pub inertia: Inertia,
}

/// Document 002's own, which hold where a fleet brings none.
pub const FIRST_VALUES: Coefficients = Coefficients {
    dt: 130,
    h: 10,
    kr: 57,
    cr: 5,
    nc: 0,
    vc: 150,
    inertia: Inertia { ki1: 90, ki2: 100, ki3: 110, i1: 0, i2: -21 },
};

fn hundredths(count: u32) -> Fraction {
    Fraction::from((i64::from(count), 100))
}

/// Document 02, Card 5, numbers it.
fn refused_unless(kept: bool) -> Result<(), u32> {
    if kept {
        Ok(())
    } else {
        Err(12)
    }
}

impl Inertia {
    /// Refusal 12.
    pub fn check(self) -> Result<(), u32> {
        let factors = [self.ki1, self.ki2, self.ki3];
        refused_unless(factors.iter().all(|k| K_I.contains(k)) && I_1.contains(&self.i1) && I_2.contains(&self.i2))
    }

    /// Section 7.2: the coefficient of the rotating masses on a slope in per mille.
    pub fn k_i(self, gradient: i32) -> Fraction {
        hundredths(if i64::from(gradient) > i64::from(self.i1) {
            self.ki1
        } else if gradient > self.i2 {
            self.ki2
        } else {
            self.ki3
        })
    }
}

impl Coefficients {
    /// Refusal 12, of the inertia too.
    pub fn check(self) -> Result<(), u32> {
        refused_unless(
            D_T.contains(&self.dt)
                && H.contains(&self.h)
                && K_R.contains(&self.kr)
                && C_R.contains(&self.cr)
                && N_C.contains(&self.nc)
                && V_C.contains(&self.vc)
                && self.vc.is_multiple_of(V_C_STEP),
        )?;
        self.inertia.check()
    }

    /// Section 7.1: the safety coefficient of the delay.
    pub fn d_t(self) -> Fraction {
        hundredths(self.dt)
    }

    /// Section 7: the on-board equipment's own delay, in seconds.
    pub fn h(self) -> Fraction {
        Fraction::from((i64::from(self.h), 10))
    }

    /// Section 7.3.3: the protection against the spread of brake performance.
    pub fn k_r(self) -> Fraction {
        hundredths(self.kr)
    }

    /// Section 7.3.1: the protection against target speeds above 0; where V is 0 the printed quotient has no value, and
    /// document 01 gives 1.
    pub fn k_0(self, v: u32, v0: u32) -> Fraction {
        if v == 0 {
            return Fraction::from(1);
        }
        Fraction::from(1) - hundredths(self.cr) * Fraction::from((i64::from(v0), u64::from(v)))
    }

    /// Section 7.3.2: the protection at high speeds, with nC per km/h; it may be below 0.
    pub fn k_c(self, v: u32) -> Fraction {
        if v <= self.vc {
            return Fraction::from(1);
        }
        Fraction::from(1) + Fraction::from((i64::from(self.nc), 1000)) * Fraction::from(v - self.vc)
    }
}
