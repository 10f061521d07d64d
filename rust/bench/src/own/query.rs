//! The approach query: the plain one's check, a walk back along the stretches for each way, and climbs that ask the exact test only
//! above a speed that is sure.
use super::{ramp, step, walk};
use crate::plain;
use crate::plain::query::{answer_by, Plan, FASTEST_CREEP};
use crate::plain::sheet::{Entry, Grade};
use crate::plain::step::{fits, Course};
use approach::raw::{Answer, Train};

/// The last speed before the first that does not fit, or the end; those up to `sure` are known to.
#[inline(always)]
fn climb(sure: u32, end: u32, fits: impl Fn(u32) -> bool) -> u32 {
    let mut v = sure;
    loop {
        if v >= end {
            break end;
        }
        let next = v + 1;
        if !fits(next) {
            break v;
        }
        v = next;
    }
}

pub(crate) struct Own;

impl Plan for Own {
    /// By the walk back from the span's last point.
    #[inline(always)]
    fn grade(stretches: &[Entry], from: u32, to: u32) -> Grade {
        walk::grade(stretches, from, to - 1)
    }

    /// A stop is surely within the overlap where a faster one is.
    #[inline(always)]
    fn release(train: Train, tm: u32, tr: u32, gradient: i32, overlap: u32) -> u32 {
        let m = plain::ramp::plan(train.braked_weight, gradient, 1, tm, tr, train.coefficients.inertia);
        let stops = |v| ramp::stop_from(&m, v).distance <= overlap;
        let end = train.top_speed.min(FASTEST_CREEP);
        let (mut sure, mut high) = (0, end + 1);
        while high - sure > 1 {
            let middle = sure + (high - sure) / 2;
            *(if stops(middle) { &mut sure } else { &mut high }) = middle;
        }
        climb(sure, end, stops)
    }

    /// The bounds show many speeds at once, ever fewer where the distance gets short.
    #[inline(always)]
    fn permitted(c: Course, v0: u32, top: u32, metres: u32) -> Option<u32> {
        let fits = |v| fits(c, v, v0, 1000 * metres);
        if !fits(v0) {
            return None;
        }
        let (mut sure, mut stride) = (v0, 64);
        while stride > 0 {
            if stride <= top - sure && step::surely_fit(c, sure + 1, sure + stride, v0, metres) {
                sure += stride;
            } else {
                stride /= 2;
            }
        }
        Some(climb(sure, top, fits))
    }
}

#[inline(never)]
pub fn query(train: Train, tm: u32, tr: u32, sheet: &[u8], signal: u32, head: u32) -> Answer {
    answer_by::<Own>(train, tm, tr, sheet, signal, head)
}
