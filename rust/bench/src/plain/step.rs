//! The step model as one would write it in Rust for accepted inputs: the same whole numbers, u128 where they fit and three
//! limbs where they do not. It stands behind a call that is not inlined, as the proved one does.
use super::wide;
use crate::Wide;
use approach::raw::{Coefficients, Curve, Distances, Inertia, Train};

/// A speed of 1 km/h in m/s / (9·10¹⁵).
const KMH: u64 = 2_500_000_000_000_000;

/// The least deceleration that a model is used with, in 10⁻⁷ m/s².
pub(crate) const LEAST7: i64 = 500_000;

/// What the speeds do not change.
#[derive(Clone, Copy)]
pub(crate) struct Course {
    pub(crate) t8: u64,
    pub(crate) r8: u64,
    up7: u64,
    down7: u64,
    power: i64,
    cr: i64,
    pub(crate) nc: i64,
    vc: u32,
}

/// What one pair of speeds gives for every curve.
struct Motion {
    a: u64,
    beta: u64,
    speed: u64,
    part: Wide,
    scale: Wide,
}

pub(crate) fn course(train: Train, gradient: i32) -> Course {
    let square = |l: u64| l * l;
    let passenger = 3_500_000 + 15 * square(if train.electropneumatic > 0 { 0 } else { train.length as u64 });
    let freight = 13_500_000 + 4 * square(train.length as u64);
    let delay = if train.freight > 0 { passenger.max(freight) } else { passenger };
    let Coefficients { dt, h, kr, cr, nc, vc, inertia } = train.coefficients;
    let (up7, down7) = slope(gradient, inertia);
    Course {
        t8: 10_000_000 * h as u64 + dt as u64 * delay,
        r8: 100_000_000 + dt as u64 * delay,
        up7,
        down7,
        power: kr as i64 * nominal(train.braked_weight) as i64,
        cr: cr.into(),
        nc: nc.into(),
        vc,
    }
}

/// An uphill and a downhill slope's deceleration in 10⁻⁷ m/s².
pub fn slope(gradient: i32, inertia: Inertia) -> (u64, u64) {
    let Inertia { ki1, ki2, ki3, i1, i2 } = inertia;
    let k = match gradient {
        i if i > i1 as i32 => ki1,
        i if i > i2 => ki2,
        _ => ki3,
    };
    let slope = k as u64 * 981 * gradient.unsigned_abs() as u64;
    (if gradient > 0 { slope } else { 0 }, if gradient < 0 { slope } else { 0 })
}

/// The nominal deceleration in 10⁻⁵ m/s².
pub fn nominal(braked_weight: u32) -> u64 {
    685 * braked_weight as u64 + 9400
}

/// A product below 2^192.
#[inline(always)]
fn product(a: u128, b: u64) -> Wide {
    let low = (a as u64) as u128 * b as u128;
    let high = (a >> 64) * b as u128 + (low >> 64);
    Wide { low: low as u64, mid: high as u64, high: (high >> 64) as u64 }
}

/// KC in thousandths, below 0 at times.
#[inline(always)]
fn kc(c: Course, v: u32) -> i64 {
    1000 + c.nc * v.saturating_sub(c.vc) as i64
}

/// The deceleration in m/s² / (10¹² s), s the greater of V and 1 km/h; below 0 where brake or slope is.
#[inline(always)]
pub(crate) fn deceleration(c: Course, v: u32, v0: u32) -> i64 {
    let s = v.max(1) as i64;
    c.power * (100 * s - c.cr * v0 as i64) * kc(c, v) + (c.up7 as i64 - c.down7 as i64) * 100_000 * s
}

/// The speed that is left when the brake begins to act, in m/s / (9·10¹⁵).
#[inline(always)]
pub(crate) fn beta(c: Course, v: u32, v0: u32) -> u64 {
    let (speed, target) = (v as u64 * KMH, v0 as u64 * KMH);
    (speed + 9 * c.down7 * c.t8).saturating_sub(9 * c.up7 * c.t8).max(target)
}

#[inline(always)]
fn motion(c: Course, v: u32, v0: u32) -> Motion {
    let s = v.max(1) as u64;
    let (a, beta) = (deceleration(c, v, v0) as u64, beta(c, v, v0));
    let (speed, target) = (v as u64 * KMH, v0 as u64 * KMH);
    let square = (beta - target) as u128 * (beta + target) as u128;
    Motion { a, beta, speed, part: product(square, 50_000 * s), scale: product(8_100_000_000_000_000_000_000, a) }
}

/// A curve's distance in millimetres, times the motion's scale.
#[inline(always)]
fn scaled(curve: Curve, c: Course, m: &Motion) -> Wide {
    let (service, warning) = match curve {
        Curve::Ebi => (0, 0),
        Curve::Sbi => (c.r8, 0),
        Curve::W => (c.r8, 150_000_000),
        Curve::P => (c.r8, 300_000_000),
    };
    let way = (c.t8 + service) as u128 * m.beta as u128 + warning as u128 * m.speed as u128;
    wide::sum_inline(product(way, 9 * m.a), m.part)
}

#[inline(always)]
fn distance_of(curve: Curve, c: Course, m: &Motion) -> u32 {
    wide::quotient_up_inline(scaled(curve, c, m), m.scale)
}

#[inline(always)]
pub(crate) fn distance(curve: Curve, c: Course, v: u32, v0: u32) -> u32 {
    distance_of(curve, c, &motion(c, v, v0))
}

/// Whether dp + di from v to v0 is not below 0.05 m/s².
#[inline(always)]
pub(crate) fn strong(c: Course, v: u32, v0: u32) -> bool {
    deceleration(c, v, v0) >= LEAST7 * 100_000 * v.max(1) as i64
}

/// Whether the brake is strong enough and P at most as many millimetres; no division.
#[inline(always)]
pub(crate) fn fits(c: Course, v: u32, v0: u32, millimetres: u32) -> bool {
    if !strong(c, v, v0) {
        return false;
    }
    let m = motion(c, v, v0);
    wide::at_most(scaled(Curve::P, c, &m), wide::times_inline(m.scale, millimetres as u64))
}

#[inline(never)]
pub extern "C" fn step(train: Train, v: u32, v0: u32, gradient: i32) -> Distances {
    let c = course(train, gradient);
    let m = motion(c, v, v0);
    Distances {
        refusal: 0,
        ebi: distance_of(Curve::Ebi, c, &m),
        sbi: distance_of(Curve::Sbi, c, &m),
        w: distance_of(Curve::W, c, &m),
        p: distance_of(Curve::P, c, &m),
    }
}

/// One curve's distances for as many speeds from v0 on as the row has places.
#[inline(never)]
pub fn row(curve: Curve, train: Train, v0: u32, gradient: i32, row: &mut [u32]) {
    let c = course(train, gradient);
    for (v, place) in (v0..).zip(row) {
        *place = distance(curve, c, v, v0);
    }
}
