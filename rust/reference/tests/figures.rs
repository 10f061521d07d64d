//! Document 01's figures and refusals for the step model and the ceilings, and the arithmetic beneath them.

use numbers::Numbers;
use reference::ceilings::ceilings;
use reference::coefficients::{Coefficients, FIRST_VALUES};
use reference::fraction::Fraction;
use reference::natural::Natural;
use reference::step::{row, step, Curve, CURVES};
use reference::train::{di, Train, EP};

mod numbers;

const LONG_FREIGHT: Train = Train { freight: true, electropneumatic: false, length: 1000, ..EP };

fn ebi(train: Train, v: u32, v0: u32, gradient: i32) -> Result<u32, u32> {
    step(train, v, v0, gradient).map(|distances| distances[0])
}

fn fraction(numerator: i64, denominator: u64) -> Fraction {
    Fraction::from((numerator, denominator))
}

impl Numbers {
    /// Of 0 to `most` limbs; every other limb is 0, full or a lone bit, where carries and borrows run far.
    fn natural(&mut self, most: u64) -> Natural {
        let count = self.next() % (most + 1);
        let limb = |numbers: &mut Numbers| match numbers.next() % 6 {
            0 => 0,
            1 => u64::MAX,
            2 => 1 << (numbers.next() % 64),
            _ => numbers.next(),
        };
        Natural::from_limbs((0..count).map(|_| limb(self)).collect())
    }

    fn above_zero(&mut self, most: u64) -> Natural {
        let number = self.natural(most);
        if number.is_zero() {
            Natural::from(1)
        } else {
            number
        }
    }
}

#[test]
fn figure_ep_90_to_0() {
    // EBI = 5.55 × 25 + 625 / (2 × 0.57 × 0.779) = 842.5312...; then 5.55 × 25 and twice 1.5 × 25 on top.
    assert_eq!(step(EP, 90, 0, 0), Ok([842_532, 981_282, 1_018_782, 1_056_282]));
    // The working brake takes the length out of the passenger row.
    assert_eq!(step(Train { length: 1000, ..EP }, 90, 0, 0), step(EP, 90, 0, 0));
}

#[test]
fn figure_ep_90_to_90() {
    assert_eq!(ebi(EP, 90, 90, 0), Ok(138_750));
    assert_eq!(ebi(EP, 90, 90, 10), Ok(138_750));
}

#[test]
fn figure_ep_standing() {
    assert_eq!(ebi(EP, 0, 0, 0), Ok(0));
    let weak = Train { braked_weight: 45, ..EP };
    assert_eq!(ebi(weak, 0, 0, -18), Ok(14_551));
    assert_eq!(ebi(weak, 0, 0, -19), Err(10));
}

#[test]
fn figure_long_freight() {
    assert_eq!(ebi(LONG_FREIGHT, 90, 90, 0), Ok(626_250));
}

#[test]
fn figure_larger_row() {
    let at_953 = Train { length: 953, ..LONG_FREIGHT };
    let at_954 = Train { length: 954, ..LONG_FREIGHT };
    assert!(at_953.freight_delay() > at_953.passenger_delay());
    assert!(at_954.freight_delay() < at_954.passenger_delay());
    assert_eq!(at_953.tf(), fraction(13, 10) * at_953.freight_delay());
    assert_eq!(at_954.tf(), fraction(13, 10) * at_954.passenger_delay());
}

#[test]
fn figure_ceilings() {
    assert_eq!(ceilings(111), Ok([13_804, 13_926, 14_229]));
    assert_eq!(ceilings(210), Ok([25_800, 26_400, 27_000]));
}

#[test]
fn ceilings_at_their_bends() {
    assert_eq!(ceilings(0), Ok([480, 600, 900]));
    assert_eq!(ceilings(110), Ok([13_680, 13_800, 14_100]));
    assert_eq!(ceilings(139), Ok([16_680 + 596, 16_680 + 774, 16_680 + 1161]));
    assert_eq!(ceilings(140), Ok([16_800 + 600, 16_800 + 780, 16_800 + 1170]));
    assert_eq!(ceilings(209), Ok([25_080 + 600, 25_080 + 1194, 25_080 + 1791]));
    assert_eq!(ceilings(330), Ok([39_600 + 600, 39_600 + 1200, 39_600 + 1800]));
    assert_eq!(ceilings(331), Err(3));
}

/// Document 01's "Ceilings" paragraph in whole 120ths, beside document 002's formula in fractions of a km/h.
#[test]
fn ceilings_as_document_01_tells_them() {
    for v in 0..=330 {
        let past = |end: u32| v.clamp(110, end) - 110;
        let told = [480 + 4 * past(140), 600 + 6 * past(210), 900 + 9 * past(210)];
        assert_eq!(ceilings(v), Ok(told.map(|extra| 120 * v + extra)), "permitted {v}");
    }
}

#[test]
fn delays() {
    // A freight train's working electropneumatic brake shortens the passenger row only: 1.3 × (13.5 + 0.04 × 100).
    let working = Train { electropneumatic: true, ..LONG_FREIGHT };
    assert_eq!(working.tf(), fraction(2275, 100));
    // 1.3 × (3.5 + 0.15 × 4) and 1.3 × 3.5.
    assert_eq!(Train { electropneumatic: false, ..EP }.tf(), fraction(533, 100));
    assert_eq!(EP.tf(), fraction(455, 100));
}

#[test]
fn slopes_and_brakes() {
    let di = |gradient| di(gradient, FIRST_VALUES.inertia);
    assert_eq!(di(1), fraction(8829, 1_000_000));
    assert_eq!(di(0), fraction(0, 1));
    assert_eq!(di(-20), fraction(-1962, 10_000));
    assert_eq!(di(-21), fraction(-226_611, 1_000_000));
    assert_eq!(EP.dr(), fraction(779, 1000));
}

#[test]
fn target_above_zero() {
    // K0 = 0.975, so EBI = 138.75 + (625 - 156.25) / (2 × 0.57 × 0.975 × 0.779) = 680.1202...
    assert_eq!(step(EP, 90, 45, 0), Ok([680_121, 818_871, 856_371, 893_871]));
}

/// With n_C and C at 0 nothing changes above 150 km/h: EBI = 5.55 × 50 + 2500 / (2 × 0.57 × 0.779) = 3092.6251...
#[test]
fn high_speed() {
    assert_eq!(step(EP, 180, 0, 0), Ok([3_092_626, 3_370_126, 3_445_126, 3_520_126]));
}

#[test]
fn refusals_of_the_train() {
    for braked_weight in [0, 40, 44, 46, 47, 161, 165, u32::MAX] {
        assert_eq!(step(Train { braked_weight, ..EP }, 50, 0, 0), Err(1), "BW {braked_weight}");
    }
    for braked_weight in [45, 50, 155, 160] {
        assert!(step(Train { braked_weight, ..EP }, 50, 0, 0).is_ok(), "BW {braked_weight}");
    }
    assert_eq!(step(Train { length: 1001, ..EP }, 50, 0, 0), Err(2));
    for top_speed in [0, 331, u32::MAX] {
        assert_eq!(step(Train { top_speed, ..EP }, 50, 0, 0), Err(3), "top speed {top_speed}");
    }
    for top_speed in [1, 330] {
        assert!(step(Train { top_speed, ..EP }, 330, 0, 0).is_ok(), "top speed {top_speed}");
    }
}

#[test]
fn refusals_of_speed_and_slope() {
    assert_eq!(step(EP, 50, 400, 0), Err(3));
    assert_eq!(step(EP, 331, 0, 0), Err(3));
    assert_eq!(step(EP, 50, 51, 0), Err(4));
    assert_eq!(step(EP, 50, 0, 36), Err(5));
    assert_eq!(step(EP, 50, 0, -36), Err(5));
    assert_eq!(step(EP, 50, 0, i32::MIN), Err(5));
    assert!(step(EP, 330, 330, 35).is_ok());
    assert!(step(Train { braked_weight: 160, ..EP }, 330, 330, -35).is_ok());
}

/// Everything is wrong at first; then one fault after another is mended, from the lowest number up, with Card 5's 12
/// between 5 and 10.
#[test]
fn lowest_refusal_first() {
    let coefficients = Coefficients { vc: 152, ..FIRST_VALUES };
    let all = Train { braked_weight: 47, length: 1001, top_speed: 0, coefficients, ..EP };
    assert_eq!(step(all, 50, 400, 36), Err(1));
    let mended = Train { braked_weight: 45, ..all };
    assert_eq!(step(mended, 50, 400, -36), Err(2));
    let mended = Train { length: 1000, ..mended };
    assert_eq!(step(mended, 50, 51, -36), Err(3));
    let mended = Train { top_speed: 52, ..mended };
    assert_eq!(step(mended, 50, 331, -36), Err(3));
    assert_eq!(step(mended, 50, 51, -36), Err(4));
    assert_eq!(step(mended, 50, 50, -36), Err(5));
    assert_eq!(step(mended, 50, 50, -35), Err(12));
    assert_eq!(row(Curve::P, mended, 331, -36, 0), Err(3));
    assert_eq!(row(Curve::P, mended, 53, -36, 0), Err(4));
    assert_eq!(row(Curve::P, mended, 50, -36, 0), Err(5));
    assert_eq!(row(Curve::P, mended, 50, -35, 0), Err(12));
    let mended = Train { coefficients: FIRST_VALUES, ..mended };
    assert_eq!(step(mended, 50, 50, -35), Err(10));
    assert_eq!(row(Curve::P, mended, 50, -35, 0), Err(10));
    assert_eq!(row(Curve::P, mended, 50, 0, 2), Err(11));
    assert_eq!(row(Curve::P, mended, 50, 0, 3).map(|row| row.len()), Ok(3));
}

/// BW 45 on -18 has 0.0527 m/s² at K0 = 1 but 0.0412 at K0 = 0.95: refused at V0 though 330 km/h would do.
#[test]
fn a_row_too_weak_at_its_target() {
    let weak = Train { braked_weight: 45, top_speed: 330, ..EP };
    assert_eq!(row(Curve::Ebi, weak, 1, -18, 330), Err(10));
    assert!(step(weak, 330, 1, -18).is_ok());
    assert_eq!(row(Curve::Ebi, weak, 0, -18, 331).map(|row| row[0]), Ok(14_551));
}

#[test]
fn rows_hold_the_single_distances() {
    for (index, curve) in CURVES.into_iter().enumerate() {
        for (v0, gradient) in [(0, 0), (37, -25), (90, 35), (100, -1)] {
            let single: Vec<u32> = (v0..=100).map(|v| step(LONG_FREIGHT, v, v0, gradient).unwrap()[index]).collect();
            assert_eq!(row(curve, LONG_FREIGHT, v0, gradient, 101), Ok(single), "{curve:?} to {v0} on {gradient}");
        }
    }
}

#[test]
fn natural_carries_and_borrows() {
    let one = Natural::from(1);
    let full = Natural::from_limbs(vec![u64::MAX, u64::MAX]);
    let power = Natural::from_limbs(vec![0, 0, 1]);
    assert_eq!(full.sum(&one), power);
    assert_eq!(one.sum(&full), power);
    assert_eq!(power.difference(&one), full);
    assert!(full.difference(&full).is_zero());
    // (2^128 - 1)² = 2^256 - 2^129 + 1.
    assert_eq!(full.product(&full), Natural::from_limbs(vec![1, 0, u64::MAX - 1, u64::MAX]));
    assert!(full.product(&Natural::from(0)).is_zero());
    assert_eq!([power.bits(), full.bits(), one.bits(), Natural::from(0).bits()], [129, 128, 1, 0]);
    assert_eq!([power.to_u64(), Natural::from(7).to_u64(), Natural::from(0).to_u64()], [None, Some(7), Some(0)]);
}

#[test]
fn natural_order() {
    let rising = [vec![], vec![1], vec![u64::MAX], vec![0, 1], vec![9, 1], vec![0, 2], vec![0, 0, 1]];
    let rising = rising.map(Natural::from_limbs);
    for (left, low) in rising.iter().enumerate() {
        for (right, high) in rising.iter().enumerate() {
            assert_eq!(low.cmp(high), left.cmp(&right), "{low:?} and {high:?}");
        }
    }
    assert_eq!(Natural::from_limbs(vec![5, 0, 0]), Natural::from(5));
}

#[test]
#[should_panic(expected = "a natural difference below 0")]
fn natural_difference_below_zero() {
    Natural::from_limbs(vec![0, 1]).difference(&Natural::from_limbs(vec![1, 1]));
}

#[test]
#[should_panic(expected = "a division by 0")]
fn natural_division_by_zero() {
    Natural::from(1).divided(&Natural::from(0));
}

/// Against the machine's own 128 bits, which share nothing with the limbs.
#[test]
fn natural_as_the_machine_reckons() {
    let natural = |value: u128| Natural::from_limbs(vec![value as u64, (value >> 64) as u64]);
    let mut numbers = Numbers(0x0123_4567_89AB_CDEF);
    for _ in 0..5000 {
        let (left, right) = (numbers.next() >> (numbers.next() % 64), numbers.next() >> (numbers.next() % 64));
        let (small, other) = (Natural::from(left), Natural::from(right));
        let product = left as u128 * right as u128;
        assert_eq!(small.product(&other), natural(product));
        assert_eq!(small.sum(&other), natural(left as u128 + right as u128));
        let divisor = (right >> 20) as u128 + 1;
        let (quotient, rest) = natural(product).divided(&natural(divisor));
        assert_eq!((quotient, rest), (natural(product / divisor), natural(product % divisor)));
        assert_eq!(natural(product).quotient_raised(&natural(divisor)), natural(product.div_ceil(divisor)));
    }
}

/// Of the dividend quotient × divisor + rest with the rest below the divisor, the division gives both back.
#[test]
fn natural_division_undoes_the_product() {
    let mut numbers = Numbers(0x9E37_79B9_7F4A_7C15);
    let (mut exact, mut inexact) = (0, 0);
    for _ in 0..4000 {
        let (quotient, divisor) = (numbers.natural(8), numbers.above_zero(8));
        let rest = numbers.natural(8).divided(&divisor).1;
        assert!(rest < divisor);
        let dividend = quotient.product(&divisor).sum(&rest);
        assert_eq!(dividend.divided(&divisor), (quotient.clone(), rest.clone()));
        let raised = if rest.is_zero() { quotient } else { quotient.sum(&Natural::from(1)) };
        assert_eq!(dividend.quotient_raised(&divisor), raised);
        *(if rest.is_zero() { &mut exact } else { &mut inexact }) += 1;
    }
    assert!(exact > 200 && inexact > 2000, "{exact} without a rest, {inexact} with one");
}

#[test]
fn natural_division_multiplied_back() {
    let mut numbers = Numbers(0xD1B5_4A32_D192_ED03);
    for _ in 0..4000 {
        let (dividend, divisor) = (numbers.natural(12), numbers.above_zero(12));
        let (quotient, rest) = dividend.divided(&divisor);
        assert!(rest < divisor, "{dividend:?} over {divisor:?}");
        assert_eq!(quotient.product(&divisor).sum(&rest), dividend);
        assert_eq!(dividend.difference(&rest), quotient.product(&divisor));
    }
}

#[test]
fn fraction_signs() {
    assert_eq!(fraction(1, 2) + fraction(1, 3), fraction(5, 6));
    assert_eq!(fraction(1, 2) - fraction(1, 3), fraction(1, 6));
    assert_eq!(fraction(1, 3) - fraction(1, 2), fraction(-1, 6));
    assert_eq!(fraction(-1, 2) + fraction(1, 3), fraction(-1, 6));
    assert_eq!(fraction(-1, 2) - fraction(1, 3), fraction(-5, 6));
    assert_eq!(fraction(0, 7) - fraction(1, 3), fraction(-1, 3));
    assert_eq!(fraction(-1, 2) * fraction(-2, 3), fraction(2, 6));
    assert_eq!(fraction(-1, 2) * fraction(2, 3), fraction(-1, 3));
    assert_eq!(fraction(-1, 2) / fraction(3, 4), fraction(-2, 3));
    assert_eq!(fraction(-1, 2) * fraction(0, 3), fraction(0, 1));
    assert_ne!(fraction(1, 2), fraction(-1, 2));
}

#[test]
fn fraction_order() {
    let rising = [(-2, 1), (-3, 2), (-1, 3), (0, 5), (1, 3), (1, 2), (3, 2)].map(Fraction::from);
    for (left, low) in rising.iter().enumerate() {
        for (right, high) in rising.iter().enumerate() {
            assert_eq!(low.cmp(high), left.cmp(&right), "{low:?} and {high:?}");
            assert_eq!(low.max(high), &rising[left.max(right)]);
        }
    }
}

#[test]
fn fraction_raised() {
    let raised = [(0, 3), (1, 3), (3, 3), (4, 3), (-1, 3), (-3, 3), (-4, 3), (-6, 3), (7, 1)];
    assert_eq!(raised.map(|printed| Fraction::from(printed).raised()), [0, 1, 1, 2, 0, -1, -1, -2, 7]);
}

#[test]
#[should_panic(expected = "a fraction over 0")]
fn fraction_over_zero() {
    fraction(1, 0);
}

#[test]
#[should_panic(expected = "a division by 0")]
fn fraction_division_by_zero() {
    let _ = fraction(1, 2) / fraction(0, 2);
}
