//! Document 01: km/h, metres and whole millimetres.

use crate::fraction::{Fraction, Printed};

/// One km/h in m/s.
const KMH: Printed = (5, 18);
const MILLIMETRES: u32 = 1000;

/// The formulas of both papers are in m/s.
pub fn metres_per_second(kmh: u32) -> Fraction {
    Fraction::from(kmh) * Fraction::from(KMH)
}

pub fn in_millimetres(metres: &Fraction) -> Fraction {
    metres * Fraction::from(MILLIMETRES)
}

/// The least whole millimetre not below a distance in metres.
pub fn millimetres(metres: &Fraction) -> u32 {
    u32::try_from(in_millimetres(metres).raised()).expect("a distance of 32 bits, not below 0")
}
