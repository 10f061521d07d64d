//! The step model: EBI, SBI, W and P distances (document 002, sections 7 and 8).

use crate::coefficients::Coefficients;
use crate::fraction::{Fraction, Printed};
use crate::train::{check_gradient, di, strong_enough, Train, TOP_SPAN};
use crate::units::{in_millimetres, metres_per_second, millimetres};

/// Sections 8.1, 8.2 and 8.3: the times in seconds that part SBI, W and P.
const T_R: Printed = (10, 10);
const T_W: Printed = (15, 10);
const T_P: Printed = (15, 10);

#[derive(Clone, Copy, Debug, PartialEq, Eq)]
pub enum Curve {
    Ebi,
    Sbi,
    W,
    P,
}

/// In the order of their distances, the shortest first (document 02, Card 13).
pub const CURVES: [Curve; 4] = [Curve::Ebi, Curve::Sbi, Curve::W, Curve::P];

/// What of the train and the slope is the same at every speed: the coefficients, tf, h + tf, di and dr.
struct Braking {
    coefficients: Coefficients,
    tf: Fraction,
    t: Fraction,
    di: Fraction,
    dr: Fraction,
}

impl Braking {
    fn new(train: Train, gradient: i32) -> Braking {
        let (coefficients, tf) = (train.coefficients, train.tf());
        Braking { coefficients, t: coefficients.h() + &tf, tf, di: di(gradient, coefficients.inertia), dr: train.dr() }
    }

    /// Section 7.3: dp, and with it dp + di; refusal 10 where that is too little.
    fn deceleration(&self, v: u32, v0: u32) -> Result<Fraction, u32> {
        let dp = self.coefficients.k_0(v, v0) * self.coefficients.k_c(v) * self.coefficients.k_r() * &self.dr;
        strong_enough(dp + &self.di)
    }

    /// Section 7.4, with V and V0 in m/s.
    fn v_beta(&self, v: &Fraction, v0: &Fraction) -> Fraction {
        let coasted = v - &self.di * &self.t;
        if coasted > *v0 {
            coasted
        } else {
            v0.clone()
        }
    }

    /// Sections 7 and 8: the exact EBI, SBI, W and P distances in metres.
    fn distances(&self, v: u32, v0: u32) -> Result<[Fraction; 4], u32> {
        let deceleration = self.deceleration(v, v0)?;
        let (v, v0) = (metres_per_second(v), metres_per_second(v0));
        let v_beta = self.v_beta(&v, &v0);
        let braked = (&v_beta * &v_beta - &v0 * &v0) / (Fraction::from(2) * deceleration);
        let ebi = &self.t * &v_beta + braked;
        let sbi = (Fraction::from(T_R) + &self.tf) * &v_beta + &ebi;
        let w = Fraction::from(T_W) * &v + &sbi;
        let p = Fraction::from(T_P) * &v + &w;
        Ok([ebi, sbi, w, p])
    }
}

/// Document 01's refusals 1 to 5, the lowest first, and then Card 5's 12.
fn check(train: Train, v: u32, v0: u32, gradient: i32) -> Result<(), u32> {
    train.check()?;
    if v > TOP_SPAN || v0 > TOP_SPAN {
        return Err(3);
    }
    if v0 > v {
        return Err(4);
    }
    check_gradient(gradient)?;
    train.coefficients.check()
}

/// EBI, SBI, W and P in millimetres, braking from V to V0 (km/h) on a gradient in per mille, or the refusal's number.
pub fn step(train: Train, v: u32, v0: u32, gradient: i32) -> Result<[u32; 4], u32> {
    check(train, v, v0, gradient)?;
    let distances = Braking::new(train, gradient).distances(v, v0)?;
    Ok(distances.each_ref().map(millimetres))
}

/// EBI, SBI, W and P in millimetres before they are raised, or the refusal's number.
pub fn exact(train: Train, v: u32, v0: u32, gradient: i32) -> Result<[Fraction; 4], u32> {
    check(train, v, v0, gradient)?;
    let distances = Braking::new(train, gradient).distances(v, v0)?;
    Ok(distances.each_ref().map(in_millimetres))
}

/// P alone.
pub fn exact_p(train: Train, v: u32, v0: u32, gradient: i32) -> Result<Fraction, u32> {
    let [.., p] = exact(train, v, v0, gradient)?;
    Ok(p)
}

/// Document 02, Card 13: EBI is at most SBI, SBI at most W, and W at most P.
pub fn in_order<D: PartialOrd>([ebi, sbi, w, p]: &[D; 4]) -> bool {
    ebi <= sbi && sbi <= w && w <= p
}

/// One curve's distances for every V from V0 to the top speed, V0 first, or the refusal's number.
pub fn row(curve: Curve, train: Train, v0: u32, gradient: i32, places: usize) -> Result<Vec<u32>, u32> {
    check(train, train.top_speed, v0, gradient)?;
    let braking = Braking::new(train, gradient);
    let distance = |v| Ok(millimetres(&braking.distances(v, v0)?[curve as usize]));
    // Document 02, Card 5: any speed that is too weak refuses the row by 10, which is decided before 11.
    let row: Vec<u32> = (v0..=train.top_speed).map(distance).collect::<Result<_, u32>>()?;
    if places < row.len() {
        return Err(11);
    }
    Ok(row)
}
