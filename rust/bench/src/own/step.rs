//! Distances: bounds of one word each settle nearly all of them; where they do not, the wide numbers do.
use crate::plain::step::{self as plain, beta, course, deceleration, strong, Course};
use approach::raw::{Curve, Distances, Train};

/// Vβ in 10⁹, lowered; a braking part in µm is at least `part` and at most `most` over `a`.
struct Bounds {
    beta: u64,
    a: u64,
    part: u64,
    most: u64,
}

/// With the deceleration at one speed, and the speed that is left at the same or another.
#[inline(always)]
fn bounds(c: Course, braked: u32, to: u32, v0: u32) -> Bounds {
    let s = braked.max(1) as u64;
    let target = 2_500_000 * v0 as u64;
    let low = beta(c, to, v0) / 1_000_000_000;
    let high = low + 1;
    let a = 81 * deceleration(c, braked, v0) as u64 / 32_000_000;
    Bounds {
        beta: low,
        a,
        part: (low - target) * (low + target) / 64 * s / (a + 1),
        most: ((high - target) * (high + target) / 64 + 1) * s,
    }
}

/// The run at steady speeds in µm, lowered, and what it is lowered by at most.
#[inline(always)]
fn run(curve: Curve, c: Course, beta: u64, v: u32) -> (u64, u64) {
    let (steady, warning) = match curve {
        Curve::Ebi => (c.t8, 0),
        Curve::Sbi => (c.t8 + c.r8, 0),
        Curve::W => (c.t8 + c.r8, 375_000_000_000_000),
        Curve::P => (c.t8 + c.r8, 750_000_000_000_000),
    };
    ((steady * beta + warning * v as u64) / 900_000_000, steady / 900_000_000 + 2)
}

/// The distance that the bounds settle.
#[inline(always)]
fn settled(curve: Curve, c: Course, v: u32, b: &Bounds) -> Option<u32> {
    let (run, rest) = run(curve, c, b.beta, v);
    let n = (run + b.part).div_ceil(1000);
    let room = (1000 * n).checked_sub(run + rest)?;
    (b.most <= b.a * room).then_some(n as u32)
}

#[inline(always)]
fn distance(curve: Curve, c: Course, v: u32, v0: u32, b: &Bounds) -> u32 {
    settled(curve, c, v, b).unwrap_or_else(|| plain::distance(curve, c, v, v0))
}

/// Of two speeds, the lower first, the one with the weaker brake. Between them it is no weaker: up to VC it does not fall with the
/// speed, nor above where nC is not below 0, and else it falls there ever faster.
#[inline(always)]
fn weaker(c: Course, from: u32, to: u32, v0: u32) -> u32 {
    let over = |v, by: u32| deceleration(c, v, v0) * by.max(1) as i64;
    if c.nc >= 0 || over(from, to) <= over(to, from) {
        from
    } else {
        to
    }
}

/// Whether the bounds show that the brake is strong enough and P at most as many metres at each speed from one to another: with the
/// weaker one's deceleration and the last's speeds.
#[inline(always)]
pub(crate) fn surely_fit(c: Course, from: u32, to: u32, v0: u32, metres: u32) -> bool {
    let weaker = weaker(c, from, to, v0);
    if !strong(c, weaker, v0) {
        return false;
    }
    let b = bounds(c, weaker, to, v0);
    let (run, rest) = run(Curve::P, c, b.beta, to);
    let room = (1_000_000 * metres.min(500_000) as u64).saturating_sub(run + rest);
    b.most / 256 < b.a * (room / 256)
}

#[inline(never)]
pub extern "C" fn step(train: Train, v: u32, v0: u32, gradient: i32) -> Distances {
    let c = course(train, gradient);
    let b = bounds(c, v, v, v0);
    let at = |curve| distance(curve, c, v, v0, &b);
    Distances { refusal: 0, ebi: at(Curve::Ebi), sbi: at(Curve::Sbi), w: at(Curve::W), p: at(Curve::P) }
}

/// One curve's distances for as many speeds from v0 on as the row has places.
#[inline(never)]
pub fn row(curve: Curve, train: Train, v0: u32, gradient: i32, row: &mut [u32]) {
    let c = course(train, gradient);
    for (v, place) in (v0..).zip(row) {
        *place = distance(curve, c, v, v0, &bounds(c, v, v, v0));
    }
}
