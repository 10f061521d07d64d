//! The ramp: one quotient for a stop under full braking, and the place in one word up to 2¹⁹ ms.
use crate::plain::ramp::{self as plain, Plan};
use approach::raw::{Inertia, Stop};

/// Up to here, in ms, every number of the place is one word long.
const WORD: u64 = 1 << 19;

/// A millimetre, as a place is counted in one word.
const MILLIMETRE: u64 = 180_000_000_000;

#[inline(always)]
fn moment(m: &Plan) -> u64 {
    let full = m.tm + m.tr;
    if m.forward(full) {
        (m.start + m.brake * m.tr * (2 * m.tm + m.tr)) / (2 * m.brake * m.tr + m.up - m.down)
    } else {
        m.last_forward(full)
    }
}

#[inline(always)]
fn place(m: &Plan, t: u64) -> u32 {
    if t > WORD {
        return m.place(t);
    }
    let unbraked = (2 * m.start + m.down * t - m.up * t) / (2 * m.tr) * t;
    let (acted, full) = m.acted(t);
    let cubes = acted * acted * acted - full * full * full;
    let brake = m.brake / 3;
    let braked = brake * (cubes / m.tr) + brake * (cubes % m.tr) / m.tr;
    (unbraked - braked).div_ceil(MILLIMETRE) as u32
}

#[inline(always)]
fn stop(m: &Plan) -> Stop {
    let t = moment(m);
    Stop { refusal: 0, distance: place(m, t) + 1, moment: t as u32 }
}

/// The stop of the same plan from another speed.
#[inline(always)]
pub(crate) fn stop_from(m: &Plan, v: u32) -> Stop {
    stop(&Plan { start: 50_000_000_000 * v as u64 * m.tr, ..*m })
}

#[inline(never)]
pub extern "C" fn ramp(braked_weight: u32, gradient: i32, v: u32, tm: u32, tr: u32, inertia: Inertia) -> Stop {
    stop(&plain::plan(braked_weight, gradient, v, tm, tr, inertia))
}
