//! The ramp model: the motion after the emergency brake is called for, and where it ends (document 000, section 5).

use crate::coefficients::Inertia;
use crate::fraction::{Fraction, Printed};
use crate::train::{check_braked_weight, check_gradient, di, dr, strong_enough};
use crate::units::{in_millimetres, metres_per_second, millimetres};
use std::ops::RangeInclusive;

/// Section 5.2.1: the protection factor. Document 01: dp is always its product with dr.
const K: Printed = (9, 10);

/// Document 01, "Ramp": the spans of V in km/h and of TM and TR in hundredths of a second.
pub const SPEEDS: RangeInclusive<u32> = 1..=100;
pub const DEAD_TIMES: RangeInclusive<u32> = 0..=2000;
pub const RISE_TIMES: RangeInclusive<u32> = 1..=3000;
const HUNDREDTHS: u64 = 100;
const MILLISECONDS: u64 = 1000;

/// Document 02, Card 13: by less than this, in millimetres, the place at the given moment is short of the answer, and
/// one km/h more than the release speed short of the overlap's end.
pub const ALLOWANCE: u32 = 2;

/// Into how many parts phase R is cut where its stop is sought.
const PARTS: u32 = 1 << 20;

/// Distance in millimetres, moment in milliseconds.
#[derive(Clone, Copy, Debug, PartialEq, Eq)]
pub struct Stop {
    pub distance: u32,
    pub moment: u32,
}

/// Section 5.1: dead time, rise of the brake force, full brake force.
#[derive(Clone, Copy, Debug, PartialEq, Eq)]
pub enum Phase {
    M,
    R,
    C,
}

/// Speed in m/s, decelerations in m/s², times in seconds.
#[derive(Clone, Debug)]
pub struct Motion {
    v0: Fraction,
    di: Fraction,
    dp: Fraction,
    tm: Fraction,
    tr: Fraction,
}

fn whole(number: u32) -> Fraction {
    Fraction::from(number)
}

impl Motion {
    /// BW in per cent, gradient in per mille, V in km/h, dead time and rise time in seconds, or refusal 10.
    ///
    /// The times are fractions because those of document 000's tables are not all whole hundredths.
    pub fn new(
        braked_weight: u32,
        gradient: i32,
        v: u32,
        tm: Fraction,
        tr: Fraction,
        inertia: Inertia,
    ) -> Result<Motion, u32> {
        let (di, dp) = (di(gradient, inertia), Fraction::from(K) * dr(braked_weight));
        let motion = Motion { v0: metres_per_second(v), di, dp, tm, tr };
        strong_enough(&motion.dp + &motion.di)?;
        Ok(motion)
    }

    /// The phase that a moment in seconds belongs to; at its ends two phases agree.
    fn phase(&self, moment: &Fraction) -> Phase {
        if *moment <= self.tm {
            Phase::M
        } else if *moment <= self.t2() {
            Phase::R
        } else {
            Phase::C
        }
    }

    /// The moment in seconds at which phase R ends.
    pub fn t2(&self) -> Fraction {
        &self.tm + &self.tr
    }

    /// Document 01, "Ramp": the place in metres at a moment in seconds.
    pub fn place(&self, moment: &Fraction) -> Fraction {
        let unbraked = &self.v0 * moment - &self.di * moment * moment / whole(2);
        let u = moment - &self.tm;
        let braked = match self.phase(moment) {
            Phase::M => return unbraked,
            Phase::R => &u * &u * &u / (whole(6) * &self.tr),
            Phase::C => {
                let w = u - &self.tr;
                &self.tr * &self.tr / whole(6) + &self.tr * &w / whole(2) + &w * &w / whole(2)
            }
        };
        unbraked - &self.dp * braked
    }

    /// Section 5.1, V_M, V_R and V_C: the speed in m/s at a moment in seconds, below 0 after the stop.
    pub fn speed(&self, moment: &Fraction) -> Fraction {
        match self.phase(moment) {
            Phase::M => &self.v0 - &self.di * moment,
            Phase::R => {
                let u = moment - &self.tm;
                self.v1() - &self.di * &u - &self.dp / (whole(2) * &self.tr) * &u * &u
            }
            // V_2 less the constant deceleration, which section 5.1.3 integrates over the way instead of the time.
            Phase::C => self.v2() - (&self.di + &self.dp) * (moment - self.t2()),
        }
    }

    /// Section 5.1.1: speed and place where phase M ends.
    fn v1(&self) -> Fraction {
        &self.v0 - &self.di * &self.tm
    }

    fn s1(&self) -> Fraction {
        &self.v0 * &self.tm - &self.di / whole(2) * &self.tm * &self.tm
    }

    /// Section 5.1.2: speed and place where phase R ends.
    fn v2(&self) -> Fraction {
        self.v1() - &self.tr * (&self.di + &self.dp / whole(2))
    }

    fn s2(&self) -> Fraction {
        let square = &self.tr * &self.tr;
        self.s1() + &self.tr * self.v1() - square * (&self.di / whole(2) + &self.dp / whole(6))
    }

    /// Sections 5.1.1 and 5.1.2: the conditions of a stop in phase M and in phase R.
    pub fn stops_in(&self) -> Phase {
        if self.di > whole(0) && &self.v0 / &self.di <= self.tm {
            Phase::M
        } else if self.dp >= whole(2) * (self.v1() / &self.tr - &self.di) {
            Phase::R
        } else {
            Phase::C
        }
    }

    /// A lower and an upper bound in metres on the greatest place over all moments, less than a micrometre apart.
    ///
    /// It is where the speed goes from not below 0 to below 0, which happens once: the deceleration never lessens from
    /// a moment to a later one, so the speed is concave; it starts above 0 and, as dp + di is above 0, ends below it.
    /// On a falling grade it may rise first, but once it has come down to 0 it falls for ever.
    pub fn greatest_place(&self) -> (Fraction, Fraction) {
        let exact = match self.stops_in() {
            Phase::M => &self.v0 * &self.v0 / (whole(2) * &self.di),
            Phase::R => return self.greatest_place_in_r(),
            Phase::C => self.s2() + self.v2() * self.v2() / (whole(2) * (&self.di + &self.dp)),
        };
        (exact.clone(), exact)
    }

    /// Section 5.1.2, S_RA, whose root is left out: the stop is closed in between two moments one part of TR apart.
    ///
    /// The place at the earlier one is a place of the motion, hence a lower bound. From there to the stop goes one part
    /// at most, and the speed rises by no more than a fall of the line alone gives, as the brake only takes away:
    /// hence the upper bound. The earlier speed falls to 0 within a part, so it is at most (|di| + dp) × part, and the
    /// bounds are at most (2 |di| + dp) × part² apart. With TR at most 30 s that is under 2 × (30/2^20)² m, 2 nm.
    fn greatest_place_in_r(&self) -> (Fraction, Fraction) {
        let part = &self.tr / whole(PARTS);
        let moment = |count| &self.tm + &part * whole(count);
        // Above 0 at the phase's start, or the stop were in phase M; not above 0 at its end by the condition of a stop.
        let (mut before, mut after) = (0, PARTS);
        while after - before > 1 {
            let middle = (before + after) / 2;
            *(if self.speed(&moment(middle)) < whole(0) { &mut after } else { &mut before }) = middle;
        }
        let lower = self.place(&moment(before));
        let fall = whole(0).max(whole(0) - &self.di);
        let fastest = self.speed(&moment(before)) + fall * &part;
        let upper = &lower + fastest * part;
        (lower, upper)
    }

    /// The last whole millisecond at which the speed is not below 0; it is so up to one moment and never after.
    fn last_moving(&self) -> u32 {
        let moving = |moment: u32| self.speed(&milliseconds(moment)) >= whole(0);
        let mut standing = 1;
        while moving(standing) {
            standing *= 2;
        }
        // Moving at half of it or, where that is 0, at the start.
        let mut last = standing / 2;
        while standing - last > 1 {
            let middle = last + (standing - last) / 2;
            *(if moving(middle) { &mut last } else { &mut standing }) = middle;
        }
        last
    }
}

/// A moment in seconds.
fn milliseconds(count: u32) -> Fraction {
    Fraction::from((i64::from(count), MILLISECONDS))
}

/// The motion of inputs in document 01's units, or its refusals 1, 3, 5, 6, Card 5's 12, and 10, in this order.
pub fn motion(braked_weight: u32, gradient: i32, v: u32, tm: u32, tr: u32, inertia: Inertia) -> Result<Motion, u32> {
    check_braked_weight(braked_weight)?;
    if !SPEEDS.contains(&v) {
        return Err(3);
    }
    check_gradient(gradient)?;
    if !DEAD_TIMES.contains(&tm) || !RISE_TIMES.contains(&tr) {
        return Err(6);
    }
    inertia.check()?;
    let seconds = |hundredths| Fraction::from((i64::from(hundredths), HUNDREDTHS));
    Motion::new(braked_weight, gradient, v, seconds(tm), seconds(tr), inertia)
}

/// Document 01, "Ramp": BW in per cent, gradient in per mille, V in km/h, TM and TR in hundredths of a second; of the
/// train's own coefficients these five alone (document 02, Card 5).
///
/// The moment is the last whole millisecond at which the train does not roll back. The distance is the place there,
/// raised to a whole millimetre, and one more: within that millisecond the place gains far less.
pub fn ramp(braked_weight: u32, gradient: i32, v: u32, tm: u32, tr: u32, inertia: Inertia) -> Result<Stop, u32> {
    let motion = motion(braked_weight, gradient, v, tm, tr, inertia)?;
    let moment = motion.last_moving();
    Ok(Stop { distance: millimetres(&motion.place(&milliseconds(moment))) + 1, moment })
}

/// The greatest place over all moments: a lower and an upper bound in metres, or the refusal's number.
pub fn greatest_place(
    braked_weight: u32,
    gradient: i32,
    v: u32,
    tm: u32,
    tr: u32,
    inertia: Inertia,
) -> Result<(Fraction, Fraction), u32> {
    Ok(motion(braked_weight, gradient, v, tm, tr, inertia)?.greatest_place())
}

/// Document 02, Card 13: whether some moment finds the run at the second speed past a place that the run at the first,
/// alike but for speed, is beyond at no moment.
///
/// The first run's upper bound is such a place: no moment finds that run beyond it. The second run's lower bound is
/// where that run is at some moment: at the stop itself in phases M and C, at most one part of TR before it in phase R.
/// So if it is the greater of the two, place and moment are found. "No" is wrong at most where the two stops are less
/// than 2 micrometres apart. Which of the speeds is the higher is not asked.
pub fn goes_farther(
    braked_weight: u32,
    gradient: i32,
    slower: u32,
    faster: u32,
    tm: u32,
    tr: u32,
    inertia: Inertia,
) -> Result<bool, u32> {
    let (_, place) = greatest_place(braked_weight, gradient, slower, tm, tr, inertia)?;
    let (reached, _) = greatest_place(braked_weight, gradient, faster, tm, tr, inertia)?;
    Ok(reached > place)
}

/// Document 01's promise with Card 13's allowance: at no moment is the place beyond the distance (millimetres), and at
/// the moment (milliseconds) it is more than the distance less the allowance. Refused inputs keep nothing.
#[allow(clippy::too_many_arguments, reason = "the ramp's inputs and the two numbers of its answer, each by itself")]
pub fn keeps_promise(
    braked_weight: u32,
    gradient: i32,
    v: u32,
    tm: u32,
    tr: u32,
    distance: u32,
    moment: u32,
    inertia: Inertia,
) -> bool {
    let Ok(motion) = motion(braked_weight, gradient, v, tm, tr, inertia) else {
        return false;
    };
    let (_, greatest) = motion.greatest_place();
    let reached = in_millimetres(&motion.place(&milliseconds(moment)));
    in_millimetres(&greatest) <= whole(distance) && reached + whole(ALLOWANCE) > whole(distance)
}
