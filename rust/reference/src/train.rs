//! The train and the slope: delay, slope deceleration and nominal deceleration (document 002, sections 6 and 7).

use crate::coefficients::{Coefficients, Inertia, FIRST_VALUES};
use crate::fraction::{Fraction, Printed};

/// Section 6: the highest speed of the service regime, V_RE, in km/h.
pub const TOP_SPAN: u32 = 330;
/// Section 6: the longest train in metres.
pub const LONGEST: u32 = 1000;
/// Section 6: the least, the greatest and the step of the braked weight percentage λ.
pub const BRAKED_WEIGHTS: (u32, u32, u32) = (45, 160, 5);

/// Document 01: the gradient's span in per mille, either way.
const STEEPEST: u32 = 35;
/// Document 01, refusal 10: the least deceleration in m/s² that a model is used with.
const LEAST_DECELERATION: Printed = (5, 100);

/// Section 7.1.1: a, b and c of the passenger row (V) and the freight row (M).
const A_V: Printed = (350, 100);
const B_V: Printed = (0, 100);
const C_V: Printed = (15, 100);
const A_M: Printed = (1350, 100);
const B_M: Printed = (0, 100);
const C_M: Printed = (4, 100);

/// Section 7.2: gravity in m/s².
const G: Printed = (981, 100);

/// Section 7.3.4: the nominal deceleration's factor of λ and its constant. C is 0, so speed does not change it.
const A: Printed = (685, 100_000);
const B: Printed = (94, 1000);

/// Braked weight in per cent, length in metres, top speed in km/h.
#[derive(Clone, Copy, Debug, PartialEq, Eq)]
pub struct Train {
    pub freight: bool,
    pub electropneumatic: bool,
    pub braked_weight: u32,
    pub length: u32,
    pub top_speed: u32,
    pub coefficients: Coefficients,
}

/// Document 01's "EP": passenger, electropneumatic brake working, BW 100; the printing program's train.
pub const EP: Train = Train {
    freight: false,
    electropneumatic: true,
    braked_weight: 100,
    length: 200,
    top_speed: 100,
    coefficients: FIRST_VALUES,
};

/// a + b × hundreds + c × hundreds², in seconds, with the length in hundreds of metres.
fn delay(a: Printed, b: Printed, c: Printed, length: u32) -> Fraction {
    let hundreds = Fraction::from((i64::from(length), 100));
    let linear = Fraction::from(b) * &hundreds;
    let square = Fraction::from(c) * (&hundreds * &hundreds);
    Fraction::from(a) + linear + square
}

impl Train {
    /// Document 01's refusals 1, 2 and 3 of the train itself, the lowest first; its coefficients are judged later.
    pub fn check(self) -> Result<(), u32> {
        check_braked_weight(self.braked_weight)?;
        check_length(self.length)?;
        if !(1..=TOP_SPAN).contains(&self.top_speed) {
            return Err(3);
        }
        Ok(())
    }

    /// Section 7.1.1, t_fV: the electropneumatic brake takes the length out of this row.
    pub fn passenger_delay(self) -> Fraction {
        delay(A_V, B_V, C_V, if self.electropneumatic { 0 } else { self.length })
    }

    /// Section 7.1.1, t_fM: the electropneumatic brake does not touch this row.
    pub fn freight_delay(self) -> Fraction {
        delay(A_M, B_M, C_M, self.length)
    }

    /// Section 7.1.1, t_f': the delay in seconds before the safety coefficient.
    pub fn delay(self) -> Fraction {
        let passenger = self.passenger_delay();
        if self.freight {
            passenger.max(self.freight_delay())
        } else {
            passenger
        }
    }

    /// Section 7.1: the time in seconds for which no brake force is assumed.
    pub fn tf(self) -> Fraction {
        self.coefficients.d_t() * self.delay()
    }

    /// Section 7.3.4: the nominal deceleration in m/s².
    pub fn dr(self) -> Fraction {
        dr(self.braked_weight)
    }
}

/// Document 01's refusal 1.
pub fn check_braked_weight(braked_weight: u32) -> Result<(), u32> {
    let (least, greatest, step) = BRAKED_WEIGHTS;
    if !(least..=greatest).contains(&braked_weight) || !(braked_weight - least).is_multiple_of(step) {
        return Err(1);
    }
    Ok(())
}

/// Document 01's refusal 2.
pub fn check_length(length: u32) -> Result<(), u32> {
    if length > LONGEST {
        return Err(2);
    }
    Ok(())
}

/// Document 01's refusal 5.
pub fn check_gradient(gradient: i32) -> Result<(), u32> {
    if gradient.unsigned_abs() > STEEPEST {
        return Err(5);
    }
    Ok(())
}

/// dp + di in m/s², or refusal 10 where that is too little.
pub fn strong_enough(deceleration: Fraction) -> Result<Fraction, u32> {
    if deceleration < Fraction::from(LEAST_DECELERATION) {
        return Err(10);
    }
    Ok(deceleration)
}

/// Section 7.3.4, for a braked weight in per cent without its train.
pub fn dr(braked_weight: u32) -> Fraction {
    Fraction::from(A) * Fraction::from(braked_weight) + Fraction::from(B)
}

/// Section 7.2: the deceleration in m/s² of a slope in per mille, positive uphill.
pub fn di(gradient: i32, inertia: Inertia) -> Fraction {
    inertia.k_i(gradient) * Fraction::from(G) * Fraction::from((i64::from(gradient), 1000))
}
