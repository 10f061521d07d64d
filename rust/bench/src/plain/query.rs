//! The approach query as one would write it in Rust where train and times are accepted: one pass over the sheet's bytes for its
//! check, then two climbs over whole numbers. It stands behind a call that is not inlined, as the proved one does.
use super::ceilings::worked_out;
use super::sheet::{Entry, Grade};
use super::{ramp, sheet, step};
use approach::raw::{Answer, Train, CURVE, NO_STRETCH, RELEASE};
use std::ops::RangeInclusive;

/// The ramp's greatest speed in km/h.
pub(crate) const FASTEST_CREEP: u32 = 100;

/// How the ways and the two climbs are worked out; where a climb begins the brake is strong enough.
pub(crate) trait Plan {
    /// What governs over the points `from` up to but not including `to`, of which there is one at least.
    fn grade(stretches: &[Entry], from: u32, to: u32) -> Grade;

    /// The release speed, of an overlap in millimetres that has a length.
    fn release(train: Train, tm: u32, tr: u32, gradient: i32, overlap: u32) -> u32;

    /// The last speed that fits the distance to the signal; none where the release speed does not.
    fn permitted(course: step::Course, release: u32, top_speed: u32, metres: u32) -> Option<u32>;
}

pub(crate) struct Plain;

/// The last speed before the first that does not fit; none where the first of all does not.
#[inline(always)]
fn climb(speeds: RangeInclusive<u32>, fits: impl Fn(u32) -> bool) -> Option<u32> {
    speeds.take_while(|&v| fits(v)).last()
}

impl Plan for Plain {
    #[inline(always)]
    fn grade(stretches: &[Entry], from: u32, to: u32) -> Grade {
        sheet::grade(stretches, from, to)
    }

    #[inline(always)]
    fn release(train: Train, tm: u32, tr: u32, gradient: i32, overlap: u32) -> u32 {
        let (weight, inertia) = (train.braked_weight, train.coefficients.inertia);
        let fits = |v| ramp::plan(weight, gradient, v, tm, tr, inertia).stop().distance <= overlap;
        climb(1..=train.top_speed.min(FASTEST_CREEP), fits).unwrap_or(0)
    }

    #[inline(always)]
    fn permitted(course: step::Course, release: u32, top_speed: u32, metres: u32) -> Option<u32> {
        climb(release..=top_speed, |v| step::fits(course, v, release, 1000 * metres))
    }
}

#[inline(always)]
fn answered<P: Plan>(train: Train, tm: u32, tr: u32, sheet: &[u8], signal: u32, head: u32) -> Result<Answer, u32> {
    let (stretches, place, overlap) = sheet::signal_ahead(sheet, signal, head)?;
    let tail = |head: u32| head.saturating_sub(train.length);
    let (mut release, mut overlap_stretch) = (0, NO_STRETCH);
    if overlap > 0 {
        let past = P::grade(stretches, tail(place), place + overlap);
        if !ramp::strong(train.braked_weight, past.gradient, train.coefficients.inertia) {
            return Err(10);
        }
        release = P::release(train, tm, tr, past.gradient, 1000 * overlap);
        overlap_stretch = past.stretch;
    }
    let ahead = P::grade(stretches, tail(head), place + 1);
    let course = step::course(train, ahead.gradient);
    if !step::strong(course, release, release) {
        return Err(10);
    }
    let last = P::permitted(course, release, train.top_speed, place - head);
    let (permitted, mark) = last.map_or((release, RELEASE), |v| (v, CURVE));
    let [w, sbi, ebi] = worked_out(permitted);
    Ok(Answer { refusal: 0, release, permitted, mark, w, sbi, ebi, overlap_stretch, ahead_stretch: ahead.stretch })
}

/// Refusals 7 to 10 are its own; the caller sees to those of the train, its coefficients and the times.
#[inline(always)]
pub(crate) fn answer_by<P: Plan>(train: Train, tm: u32, tr: u32, sheet: &[u8], signal: u32, head: u32) -> Answer {
    let refused = |refusal| Answer { refusal, ..Default::default() };
    answered::<P>(train, tm, tr, sheet, signal, head).unwrap_or_else(refused)
}

#[inline(never)]
pub fn query(train: Train, tm: u32, tr: u32, sheet: &[u8], signal: u32, head: u32) -> Answer {
    answer_by::<Plain>(train, tm, tr, sheet, signal, head)
}
