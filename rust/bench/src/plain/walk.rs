//! A step back from a signal as one would write it in Rust: both ends of the walk by a scan along the stretches, and the least of
//! those between. It stands behind a call that is not inlined, as the proved one does.
use super::sheet::{governing, gradient, signal_ahead, split, Entry, Grade};
use approach::raw::Back;

/// In metres.
const LONGEST_TRAIN: u32 = 1000;

/// Number and gradient of a step, and what governs up to it.
pub(crate) type Step = (u32, i32, Grade);

/// The stretch that holds a point.
#[inline(always)]
fn stretch_at(stretches: &[Entry], point: u32) -> usize {
    // The first stretch starts at 0, so one has begun.
    stretches.iter().take_while(|stretch| split(stretch).0 <= point).count() - 1
}

/// None past the stretch that holds the tail.
#[inline(always)]
fn step_back(stretches: &[Entry], tail: u32, place: u32, step: u32) -> Option<Step> {
    let (first, last) = (stretch_at(stretches, tail), stretch_at(stretches, place));
    let number = last.checked_sub(step as usize).filter(|&number| number >= first)?;
    Some((number as u32, gradient(&stretches[number]), governing(stretches, number..last + 1)))
}

/// The call by a way to find the step between the tail and the signal.
#[inline(always)]
pub(crate) fn back_by(
    find: impl Fn(&[Entry], u32, u32, u32) -> Option<Step>,
    sheet: &[u8],
    signal: u32,
    head: u32,
    length: u32,
    step: u32,
) -> Back {
    let none = Back::default();
    if length > LONGEST_TRAIN {
        return Back { refusal: 2, ..none };
    }
    let (stretches, place) = match signal_ahead(sheet, signal, head) {
        Ok((stretches, place, _)) => (stretches, place),
        Err(refusal) => return Back { refusal, ..none },
    };
    match find(stretches, head.saturating_sub(length), place, step) {
        Some((stretch, gradient, Grade { gradient: least, stretch: least_stretch })) => {
            Back { stretch, gradient, least, least_stretch, ..none }
        }
        None => Back { end: 1, ..none },
    }
}

#[inline(never)]
pub fn back(sheet: &[u8], signal: u32, head: u32, length: u32, step: u32) -> Back {
    back_by(step_back, sheet, signal, head, length, step)
}
