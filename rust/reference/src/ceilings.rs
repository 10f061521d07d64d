//! The speed ceilings over a permitted speed (document 002, section 9).

use crate::fraction::{Fraction, Printed};
use crate::train::TOP_SPAN;

/// The answers' unit: 120ths of a km/h.
const PARTS: u32 = 120;

/// The speeds V1 and V2 in km/h between which the margin ΔV grows, and its least and greatest value in km/h.
struct Margin {
    v1: u32,
    v2: u32,
    least: Printed,
    greatest: Printed,
}

const W: Margin = Margin { v1: 110, v2: 140, least: (40, 10), greatest: (50, 10) };
const SBI: Margin = Margin { v1: 110, v2: 210, least: (50, 10), greatest: (100, 10) };
const EBI: Margin = Margin { v1: 110, v2: 210, least: (75, 10), greatest: (150, 10) };

impl Margin {
    /// Section 9, ΔV in km/h.
    fn at(&self, permitted: u32) -> Fraction {
        let (least, greatest) = (Fraction::from(self.least), Fraction::from(self.greatest));
        if permitted <= self.v1 {
            return least;
        }
        if permitted >= self.v2 {
            return greatest;
        }
        let slope = (greatest - &least) / Fraction::from(self.v2 - self.v1);
        least + slope * Fraction::from(permitted - self.v1)
    }

    /// Section 9, ΔV + V_P, in 120ths of a km/h.
    fn ceiling(&self, permitted: u32) -> u32 {
        let parts = (self.at(permitted) + Fraction::from(permitted)) * Fraction::from(PARTS);
        let whole = u32::try_from(parts.raised()).expect("a ceiling of 32 bits");
        assert!(parts == Fraction::from(whole), "a ceiling between two 120ths of a km/h");
        whole
    }
}

/// W, SBI and EBI in 120ths of a km/h for a permitted speed in km/h, or the refusal's number.
pub fn ceilings(permitted: u32) -> Result<[u32; 3], u32> {
    if permitted > TOP_SPAN {
        return Err(3);
    }
    Ok([W, SBI, EBI].map(|margin| margin.ceiling(permitted)))
}
