//! The ramp as one would write it in Rust for accepted inputs: the same whole numbers, with u128 for the place. It stands behind
//! a call that is not inlined, as the proved one does.
use super::step::{nominal, slope, LEAST7};
use approach::raw::{Inertia, Stop};

/// Some 17 minutes, by which every accepted train rolls back.
const LONGEST: u64 = 1 << 20;

/// Times in ms, speeds and decelerations scaled by twice the rise time.
pub(crate) struct Plan {
    pub(crate) start: u64,
    pub(crate) up: u64,
    pub(crate) down: u64,
    pub(crate) brake: u64,
    pub(crate) tm: u64,
    pub(crate) tr: u64,
}

pub(crate) fn plan(braked_weight: u32, gradient: i32, v: u32, tm: u32, tr: u32, inertia: Inertia) -> Plan {
    let (up7, down7) = slope(gradient, inertia);
    let tr = 10 * tr as u64;
    Plan {
        start: 50_000_000_000 * v as u64 * tr,
        up: 18 * up7 * tr,
        down: 18 * down7 * tr,
        brake: 810 * nominal(braked_weight),
        tm: 10 * tm as u64,
        tr,
    }
}

impl Plan {
    /// How long the brake has acted at t, and how long in full.
    #[inline(always)]
    pub(crate) fn acted(&self, t: u64) -> (u64, u64) {
        (t.saturating_sub(self.tm), t.saturating_sub(self.tm + self.tr))
    }

    #[inline(always)]
    pub(crate) fn forward(&self, t: u64) -> bool {
        let (acted, full) = self.acted(t);
        self.up * t + self.brake * (acted * acted - full * full) <= self.start + self.down * t
    }

    /// The last millisecond before `high`, by which it rolls back, at which it does not.
    #[inline(always)]
    pub(crate) fn last_forward(&self, mut high: u64) -> u64 {
        let mut low = 0;
        while high - low > 1 {
            let middle = low + (high - low) / 2;
            *(if self.forward(middle) { &mut low } else { &mut high }) = middle;
        }
        low
    }

    /// Raised to the least whole millimetre not below.
    pub(crate) fn place(&self, t: u64) -> u32 {
        let (acted, full) = self.acted(t);
        let cubes = acted * acted * acted - full * full * full;
        let gain = 3 * t as u128 * (2 * self.start + self.down * t) as u128;
        let loss = 3 * t as u128 * (self.up * t) as u128 + 2 * self.brake as u128 * cubes as u128;
        (gain - loss).div_ceil(1_080_000_000_000 * self.tr as u128) as u32
    }

    #[inline(always)]
    pub(crate) fn stop(&self) -> Stop {
        let t = self.last_forward(LONGEST);
        Stop { refusal: 0, distance: self.place(t) + 1, moment: t as u32 }
    }
}

/// Whether dp + di is not below 0.05 m/s².
pub(crate) fn strong(braked_weight: u32, gradient: i32, inertia: Inertia) -> bool {
    let (up7, down7) = slope(gradient, inertia);
    90 * nominal(braked_weight) + up7 >= down7 + LEAST7 as u64
}

#[inline(never)]
pub extern "C" fn ramp(braked_weight: u32, gradient: i32, v: u32, tm: u32, tr: u32, inertia: Inertia) -> Stop {
    plan(braked_weight, gradient, v, tm, tr, inertia).stop()
}
