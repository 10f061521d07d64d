//! What document 002 leaves to each train, in its spans and steps; what lies outside is refused by
//! [`Refusal::Coefficient`](crate::Refusal::Coefficient).
use crate::raw;
use crate::units::{Kmh, PerMille};

/// What turning masses make of a slope: the factor Ki of its deceleration, and the gradients that part the three. Past a closed
/// signal these alone count.
#[derive(Clone, Copy, Debug, PartialEq, Eq)]
pub struct Inertia {
    /// Ki1 in hundredths, 80 to 120: on gradients above i1.
    pub ki1: u32,
    /// Ki2 in hundredths, 80 to 120: on gradients above i2, up to i1.
    pub ki2: u32,
    /// Ki3 in hundredths, 80 to 120: on gradients of i2 and below.
    pub ki3: u32,
    /// 0 to 35 per mille.
    pub i1: PerMille,
    /// -35 to 0 per mille.
    pub i2: PerMille,
}

impl Inertia {
    /// Document 002's.
    pub const FIRST_VALUES: Inertia = Inertia { ki1: 90, ki2: 100, ki3: 110, i1: PerMille(0), i2: PerMille(-21) };
}

/// A train's own coefficients.
#[derive(Clone, Copy, Debug, PartialEq, Eq)]
pub struct Coefficients {
    /// Dt in hundredths, 0 to 200: the safety coefficient of the brake's delay.
    pub dt: u32,
    /// h in tenths of a second, 0 to 50: the equipment's own delay.
    pub h: u32,
    /// Kr in hundredths, 30 to 150: how much of the nominal deceleration counts.
    pub kr: u32,
    /// cr in hundredths, 0 to 10: what a target speed takes off, by V0/V.
    pub cr: u32,
    /// nC in thousandths for each km/h above VC, -10 to 10: by how much more, or less, of the brake counts there.
    pub nc: i32,
    /// VC, 0 to 400 km/h in steps of 5.
    pub vc: Kmh,
    /// Those of the slope.
    pub inertia: Inertia,
}

impl Coefficients {
    /// Document 002's, as [`first_values`] gives them.
    pub const FIRST_VALUES: Coefficients =
        Coefficients { dt: 130, h: 10, kr: 57, cr: 5, nc: 0, vc: Kmh(150), inertia: Inertia::FIRST_VALUES };
}

impl Default for Inertia {
    fn default() -> Inertia {
        Inertia::FIRST_VALUES
    }
}

impl Default for Coefficients {
    fn default() -> Coefficients {
        Coefficients::FIRST_VALUES
    }
}

impl From<Inertia> for raw::Inertia {
    fn from(inertia: Inertia) -> raw::Inertia {
        let Inertia { ki1, ki2, ki3, i1, i2 } = inertia;
        // An i1 below 0 becomes a number far over its span, and so is refused.
        raw::Inertia { ki1, ki2, ki3, i1: i1.0 as u32, i2: i2.0 }
    }
}

impl From<Coefficients> for raw::Coefficients {
    fn from(coefficients: Coefficients) -> raw::Coefficients {
        let Coefficients { dt, h, kr, cr, nc, vc, inertia } = coefficients;
        raw::Coefficients { dt, h, kr, cr, nc, vc: vc.0, inertia: inertia.into() }
    }
}

/// Document 002's first values, as the library has them.
pub fn first_values() -> Coefficients {
    let raw::Coefficients { dt, h, kr, cr, nc, vc, inertia } = raw::first_values();
    let raw::Inertia { ki1, ki2, ki3, i1, i2 } = inertia;
    let inertia = Inertia { ki1, ki2, ki3, i1: PerMille(i1 as i32), i2: PerMille(i2) };
    Coefficients { dt, h, kr, cr, nc, vc: Kmh(vc), inertia }
}
