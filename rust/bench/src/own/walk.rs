//! The walk back along the stretches: the last point's stretch by halving, then one stretch after the other.
use crate::plain::sheet::{gradient, split, Entry, Grade};
use crate::plain::walk::{back_by, Step};
use approach::raw::Back;

/// Half of the stretches left fall away at each look.
#[inline(always)]
fn stretch_at(stretches: &[Entry], point: u32) -> usize {
    let (mut low, mut high) = (0, stretches.len());
    while low + 1 < high {
        let middle = low + (high - low) / 2;
        *(if split(&stretches[middle]).0 <= point { &mut low } else { &mut high }) = middle;
    }
    low
}

/// Where it stands.
struct Walk {
    stretch: usize,
    gradient: i32,
    least: i32,
    least_stretch: usize,
}

impl Walk {
    /// At the stretch that holds a point.
    #[inline(always)]
    fn begin(stretches: &[Entry], point: u32) -> Walk {
        let stretch = stretch_at(stretches, point);
        let gradient = gradient(&stretches[stretch]);
        Walk { stretch, gradient, least: gradient, least_stretch: stretch }
    }

    #[inline(always)]
    fn ahead_of(&self, stretches: &[Entry], point: u32) -> bool {
        point < split(&stretches[self.stretch]).0
    }

    /// At the stretch before, which governs also where the gradients are equal: its number is the lower.
    #[inline(always)]
    fn onward(self, stretches: &[Entry]) -> Walk {
        let stretch = self.stretch - 1;
        let gradient = gradient(&stretches[stretch]);
        let (least, least_stretch) =
            if gradient <= self.least { (gradient, stretch) } else { (self.least, self.least_stretch) };
        Walk { stretch, gradient, least, least_stretch }
    }

    #[inline(always)]
    fn grade(&self) -> Grade {
        Grade { gradient: self.least, stretch: self.least_stretch as u32 }
    }
}

/// What governs over the points from `first` to `last`, both included.
#[inline(always)]
pub(crate) fn grade(stretches: &[Entry], first: u32, last: u32) -> Grade {
    let mut walk = Walk::begin(stretches, last);
    while walk.ahead_of(stretches, first) {
        walk = walk.onward(stretches);
    }
    walk.grade()
}

/// None past the stretch that holds the tail.
#[inline(always)]
fn step_back(stretches: &[Entry], tail: u32, place: u32, step: u32) -> Option<Step> {
    let mut walk = Walk::begin(stretches, place);
    for _ in 0..step {
        if !walk.ahead_of(stretches, tail) {
            return None;
        }
        walk = walk.onward(stretches);
    }
    Some((walk.stretch as u32, walk.gradient, walk.grade()))
}

#[inline(never)]
pub fn back(sheet: &[u8], signal: u32, head: u32, length: u32, step: u32) -> Back {
    back_by(step_back, sheet, signal, head, length, step)
}
