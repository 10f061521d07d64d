//! Document 02, Card 5: a train's own coefficients in every model, against figures worked out by hand and against whole
//! numbers, which share nothing with the reference's fractions.

use answers::{answer, without_stretches};
use numbers::Numbers;
use reference::approach::{approach, keeps_demand, Answer, Fault, Mark};
use reference::coefficients::{Coefficients, Inertia, FIRST_VALUES};
use reference::fraction::Fraction;
use reference::ramp::{goes_farther, greatest_place, keeps_promise, ramp, Stop};
use reference::sheet::write;
use reference::step::{exact_p, row, step, Curve};
use reference::train::{self, di, Train};

mod answers;
mod numbers;

/// Document 01's "EP", with the highest top speed; dr is 0.779 m/s².
const EP: Train = Train { top_speed: 330, ..train::EP };
/// Trains whose delay is a whole number of tenths of a second, which stands beside them: 3.5; 3.5 + 0.15 × 6²; 13.5; and
/// 3.5 + 0.15 × 10² for 1,000 m, which is more than 13.5 + 0.04 × 10².
const DELAYS: [(Train, i128); 4] = [
    (EP, 35),
    (Train { electropneumatic: false, length: 600, ..EP }, 89),
    (Train { freight: true, length: 0, ..EP }, 135),
    (Train { freight: true, electropneumatic: false, length: 1000, ..EP }, 185),
];

type Edit = fn(&mut Coefficients, i32);

/// Each coefficient with the ends of its span; the last five are the ramp's too.
const SPANS: [(&str, Edit, i32, i32); 11] = [
    ("Dt", |own, value| own.dt = value as u32, 0, 200),
    ("h", |own, value| own.h = value as u32, 0, 50),
    ("Kr", |own, value| own.kr = value as u32, 30, 150),
    ("cr", |own, value| own.cr = value as u32, 0, 10),
    ("nC", |own, value| own.nc = value, -10, 10),
    ("VC", |own, value| own.vc = value as u32, 0, 400),
    ("Ki1", |own, value| own.inertia.ki1 = value as u32, 80, 120),
    ("Ki2", |own, value| own.inertia.ki2 = value as u32, 80, 120),
    ("Ki3", |own, value| own.inertia.ki3 = value as u32, 80, 120),
    ("i1", |own, value| own.inertia.i1 = value as u32, 0, 35),
    ("i2", |own, value| own.inertia.i2 = value, -35, 0),
];

/// The first values but for one, which is so many hundredths, tenths, thousandths, km/h or per mille.
fn edited(edit: Edit, value: i32) -> Coefficients {
    let mut own = FIRST_VALUES;
    edit(&mut own, value);
    own
}

fn ep(coefficients: Coefficients) -> Train {
    Train { coefficients, ..EP }
}

/// KC alone of a train's own.
fn high_speed(nc: i32, vc: u32) -> Train {
    ep(Coefficients { nc, vc, ..FIRST_VALUES })
}

fn slopes(ki1: u32, ki2: u32, ki3: u32, i1: u32, i2: i32) -> Inertia {
    Inertia { ki1, ki2, ki3, i1, i2 }
}

fn fraction(numerator: i64, denominator: u64) -> Fraction {
    Fraction::from((numerator, denominator))
}

/// A line with its stretches, its first signal and its end 1,000 m behind that.
fn line(stretches: &[(u32, i16)], place: u32, overlap: u16) -> Vec<u8> {
    let (starts, gradients): (Vec<u32>, Vec<i16>) = stretches.iter().copied().unzip();
    write(&starts, &gradients, &[place], &[overlap], place + 1000, 1000).expect("a sheet that keeps its rules")
}

/// With TM 200, TR 400 and head 0.
fn query(train: Train, sheet: &[u8]) -> Result<Answer, u32> {
    approach(train, 200, 400, sheet, 0, 0).map(without_stretches)
}

fn verdict(train: Train, sheet: &[u8], answer: Answer) -> Result<(), Fault> {
    keeps_demand(train, 200, 400, sheet, 0, 0, answer)
}

/// Section 7.2 in ten-millionths of a m/s²: hundredths, 9.81 and per mille.
fn slope(inertia: Inertia, gradient: i32) -> i128 {
    let [above, from] = [inertia.i1 as i32, inertia.i2].map(|threshold| gradient.cmp(&threshold).is_gt());
    let factor = if above { inertia.ki1 } else { [inertia.ki3, inertia.ki2][usize::from(from)] };
    i128::from(factor) * 981 * i128::from(gradient)
}

/// Section 7.3's dp and section 7.2's di together, in m/s² times V × 10^12, and that V; it is 1 for a V of 0, as then V0
/// is 0 too and K0 is 1.
///
/// K0 is (100 V - cr V0) over 100 V, KC is in thousandths, Kr in hundredths, dr in hundred-thousandths.
fn strength(train: Train, v: u32, v0: u32, gradient: i32) -> (i128, i128) {
    let Coefficients { kr, cr, nc, vc, inertia, .. } = train.coefficients;
    let over = i128::from(v.max(1));
    let k0 = 100 * over - i128::from(cr) * i128::from(v0);
    let kc = 1000 + i128::from(nc) * i128::from(v.saturating_sub(vc));
    let dr = 685 * i128::from(train.braked_weight) + 9400;
    (k0 * kc * i128::from(kr) * dr + 100_000 * over * slope(inertia, gradient), over)
}

/// Below 0.05 m/s².
fn weak(train: Train, v: u32, v0: u32, gradient: i32) -> bool {
    let (strength, over) = strength(train, v, v0, gradient);
    strength < 50_000_000_000 * over
}

/// Sections 7 and 8 for a train whose delay is so many tenths of a second, or refusal 10.
///
/// Times are in milliseconds: Dt in hundredths of tenths is whole. Speeds are in 18 × 10^10ths of a m/s, in which 1 km/h
/// is 5 × 10^10 and a ten-millionth of a m/s² for a millisecond is 18. Distances are in millimetres times 648 × 10^10 ×
/// strength: with these units T Vβ is to be multiplied by 36 × strength, Vβ² - V0² by 10^5 × V, and 1.5 s of V km/h,
/// 1250 V / 3 mm, are 2.7 × 10^15 × strength × V.
fn by_hand((train, tenths): (Train, i128), v: u32, v0: u32, gradient: i32) -> Result<[u32; 4], u32> {
    if weak(train, v, v0, gradient) {
        return Err(10);
    }
    let (strength, over) = strength(train, v, v0, gradient);
    let tf = i128::from(train.coefficients.dt) * tenths;
    let t = 100 * i128::from(train.coefficients.h) + tf;
    let [speed, target] = [v, v0].map(|v| 50_000_000_000 * i128::from(v));
    let beta = target.max(speed - 18 * slope(train.coefficients.inertia, gradient) * t);
    let ebi = 36 * strength * t * beta + 100_000 * over * (beta * beta - target * target);
    let sbi = ebi + 36 * strength * (1000 + tf) * beta;
    let notice = 2_700_000_000_000_000 * strength * i128::from(v);
    let unit = 6_480_000_000_000 * strength;
    let raised = |distance: i128| u32::try_from((distance + unit - 1) / unit).expect("a distance of 32 bits");
    Ok([ebi, sbi, sbi + notice, sbi + 2 * notice].map(raised))
}

/// The whole numbers themselves, on document 01's figures and on one of tests/figures.rs.
#[test]
fn whole_numbers_hold_the_figures() {
    let weak = Train { braked_weight: 45, ..EP };
    assert_eq!(by_hand((EP, 35), 90, 0, 0), Ok([842_532, 981_282, 1_018_782, 1_056_282]));
    assert_eq!(by_hand((EP, 35), 90, 90, 10).map(|ways| ways[0]), Ok(138_750));
    assert_eq!(by_hand((EP, 35), 0, 0, 0), Ok([0; 4]));
    assert_eq!(by_hand((weak, 35), 0, 0, -18).map(|ways| ways[0]), Ok(14_551));
    assert_eq!(by_hand((weak, 35), 0, 0, -19), Err(10));
    assert_eq!(by_hand(DELAYS[3], 90, 90, 0).map(|ways| ways[0]), Ok(626_250));
    assert_eq!(by_hand((EP, 35), 90, 45, 0), Ok([680_121, 818_871, 856_371, 893_871]));
}

/// Document 002's tables: Dt 1,30; h 1,0; Kr 0,57; cr 0,05; nC 0,000; VC 150; Ki 0,90, 1,00 and 1,1; i1 0,000; i2 -0,021.
#[test]
fn first_values() {
    let first = FIRST_VALUES;
    assert_eq!([first.d_t(), first.h(), first.k_r()], [fraction(13, 10), fraction(1, 1), fraction(57, 100)]);
    assert_eq!([first.k_0(0, 0), first.k_0(90, 90)], [fraction(1, 1), fraction(95, 100)]);
    assert_eq!([150, 151, 330].map(|v| first.k_c(v)), [(); 3].map(|()| fraction(1, 1)));
    let factors = [(1, 90), (35, 90), (0, 100), (-20, 100), (-21, 110), (-35, 110)];
    for (gradient, hundredths) in factors {
        assert_eq!(first.inertia.k_i(gradient), fraction(hundredths, 100), "{gradient}");
    }
    assert_eq!(first.check(), Ok(()));
}

#[test]
fn spans() {
    for (name, edit, least, greatest) in SPANS {
        for inside in [least, greatest] {
            assert_eq!(edited(edit, inside).check(), Ok(()), "{name} {inside}");
            assert!(step(ep(edited(edit, inside)), 90, 0, 0).is_ok(), "{name} {inside}");
        }
        for outside in [least - 1, greatest + 1, i32::MIN, i32::MAX] {
            assert_eq!(edited(edit, outside).check(), Err(12), "{name} {outside}");
            assert_eq!(step(ep(edited(edit, outside)), 90, 0, 0), Err(12), "{name} {outside}");
        }
    }
    // The ramp's five by themselves.
    for (name, edit, least, greatest) in &SPANS[6..] {
        let kept = [*least, *greatest, least - 1, greatest + 1].map(|value| edited(*edit, value).inertia.check());
        assert_eq!(kept, [Ok(()), Ok(()), Err(12), Err(12)], "{name}");
    }
    let brakes = Coefficients { dt: 201, h: 51, kr: 29, cr: 11, nc: 11, vc: 1, ..FIRST_VALUES };
    assert_eq!((brakes.check(), brakes.inertia.check()), (Err(12), Ok(())));
}

#[test]
fn vc_goes_by_5() {
    for vc in 0..=410 {
        let wanted = if vc % 5 == 0 && vc <= 400 { Ok(()) } else { Err(12) };
        assert_eq!(Coefficients { vc, ..FIRST_VALUES }.check(), wanted, "VC {vc}");
    }
}

#[test]
fn zeros_are_refused() {
    let zeros = Coefficients { dt: 0, h: 0, kr: 0, cr: 0, nc: 0, vc: 0, inertia: slopes(0, 0, 0, 0, 0) };
    assert_eq!(step(ep(zeros), 90, 0, 0), Err(12));
    assert_eq!(row(Curve::P, ep(zeros), 0, 0, 331), Err(12));
    assert_eq!(ramp(100, 0, 36, 200, 400, zeros.inertia), Err(12));
    for overlap in [0, 120] {
        let sheet = line(&[(0, 0)], 5000, overlap);
        assert_eq!(query(ep(zeros), &sheet), Err(12), "overlap {overlap}");
        assert_eq!(verdict(ep(zeros), &sheet, answer(0, 90, Mark::Curve)), Err(Fault::Refused(12)));
    }
}

/// Everything is wrong at first; then one fault after another is mended. The ramp has refusals 1, 3, 5, 6, 12 and 10.
#[test]
fn refusals_about_12() {
    let bad = slopes(79, 100, 110, 0, -21);
    assert_eq!(ramp(44, 36, 0, 2001, 0, bad), Err(1));
    assert_eq!(ramp(45, 36, 0, 2001, 0, bad), Err(3));
    assert_eq!(ramp(45, 36, 36, 2001, 0, bad), Err(5));
    assert_eq!(ramp(45, -35, 36, 2001, 400, bad), Err(6));
    assert_eq!(ramp(45, -35, 36, 200, 0, bad), Err(6));
    assert_eq!(ramp(45, -35, 36, 200, 400, bad), Err(12));
    assert_eq!(greatest_place(45, -35, 36, 200, 400, bad), Err(12));
    assert_eq!(ramp(45, -35, 36, 200, 400, FIRST_VALUES.inertia), Err(10));
    // Step and row: 5, 12, 10 and, for the row, 11.
    for (name, edit, _, greatest) in SPANS {
        let train = Train { braked_weight: 45, ..ep(edited(edit, greatest + 1)) };
        let refused =
            |gradient, places| (step(train, 90, 0, gradient).err(), row(Curve::P, train, 0, gradient, places).err());
        assert_eq!(refused(36, 0), (Some(5), Some(5)), "{name}");
        assert_eq!(refused(-35, 0), (Some(12), Some(12)), "{name}");
        assert_eq!(refused(0, 0), (Some(12), Some(12)), "{name}");
    }
    let weak = Train { braked_weight: 45, ..EP };
    assert_eq!([(-35, 0), (0, 330)].map(|(i, places)| row(Curve::P, weak, 0, i, places)), [Err(10), Err(11)]);
}

/// 6 before 12, and 12 before 7, 8, 9 and 10, for each coefficient and whether the overlap has the ramp consulted or not.
#[test]
fn refusals_about_12_in_the_query() {
    for (name, edit, least, _) in SPANS {
        let train = Train { braked_weight: 45, ..ep(edited(edit, least - 1)) };
        for overlap in [0, 120] {
            let sheet = line(&[(0, -35)], 1000, overlap);
            assert_eq!(approach(train, 2001, 400, &sheet[1..], 1, 1001), Err(6), "{name}");
            assert_eq!(approach(train, 200, 3001, &sheet, 0, 0), Err(6), "{name}");
            assert_eq!(approach(train, 200, 400, &sheet[1..], 1, 1001), Err(12), "{name}");
            assert_eq!(approach(train, 200, 400, &sheet, 1, 1001), Err(12), "{name}");
            assert_eq!(approach(train, 200, 400, &sheet, 0, 1001), Err(12), "{name}");
            assert_eq!(approach(train, 200, 400, &sheet, 0, 0), Err(12), "{name}");
            let sound = Train { coefficients: FIRST_VALUES, ..train };
            assert_eq!(approach(sound, 200, 400, &sheet[1..], 1, 1001), Err(7));
            assert_eq!(approach(sound, 200, 400, &sheet, 1, 1001), Err(8));
            assert_eq!(approach(sound, 200, 400, &sheet, 0, 1001), Err(9));
            assert_eq!(approach(sound, 200, 400, &sheet, 0, 0), Err(10));
        }
    }
}

/// Braking from 25 m/s to 25 m/s on the level, EBI is T × 25 m, SBI (1.0 + tf) × 25 m more, W and P 37.5 m each.
#[test]
fn times() {
    let times = |dt, h| step(ep(Coefficients { dt, h, ..FIRST_VALUES }), 90, 90, 0);
    // tf = 2.00 × 3.5 = 7 s, T = 5.0 + 7 s.
    assert_eq!(times(200, 50), Ok([300_000, 500_000, 537_500, 575_000]));
    // T = 0: only tR, tW and tP are left.
    assert_eq!(times(0, 0), Ok([0, 25_000, 62_500, 100_000]));
    // tf = 0.01 × 3.5 s, which counts twice; h = 0.1 s, which counts once.
    assert_eq!(times(1, 0), Ok([875, 26_750, 64_250, 101_750]));
    assert_eq!(times(0, 1), Ok([2500, 27_500, 65_000, 102_500]));
    // T = 0 to a stop: 625 / (2 × 0.57 × 0.779) = 703.7812..., and on a slope Vβ is still V: on 10 per mille 625 over
    // 2 × (0.44403 + 0.08829) is 587.0529...
    let at_once = ep(Coefficients { dt: 0, h: 0, ..FIRST_VALUES });
    assert_eq!(step(at_once, 90, 0, 0), Ok([703_782, 728_782, 766_282, 803_782]));
    assert_eq!(step(at_once, 90, 0, 10), Ok([587_053, 612_053, 649_553, 687_053]));
    assert_eq!(step(at_once, 0, 0, -10), Ok([0; 4]));
}

/// EBI of 90 to 0 is 138.75 + 625 / (2 dp), of 90 to 45 it is 138.75 + 468.75 / (2 dp).
#[test]
fn protections() {
    let ebi = |own, v0| step(ep(own), 90, v0, 0).map(|ways| ways[0]);
    // dp = 0.30 × 0.779 = 0.2337: 1337.1844...; dp = 1.50 × 0.779 = 1.1685: 267.4368...
    assert_eq!(ebi(Coefficients { kr: 30, ..FIRST_VALUES }, 0), Ok(1_475_935));
    assert_eq!(ebi(Coefficients { kr: 150, ..FIRST_VALUES }, 0), Ok(406_187));
    // K0 = 1 - 0.10 / 2: 468.75 / 0.843657 = 555.6167...; K0 = 1: 468.75 / 0.88806 = 527.8359...
    assert_eq!(ebi(Coefficients { cr: 10, ..FIRST_VALUES }, 45), Ok(694_367));
    assert_eq!(ebi(Coefficients { cr: 0, ..FIRST_VALUES }, 45), Ok(666_586));
}

/// Section 7.3.2, on the level to 0: EBI is 5.55 V + V² / (0.88806 KC).
#[test]
fn kc_above_vc() {
    let ebi = |nc, vc, v| step(high_speed(nc, vc), v, 0, 0).map(|ways| ways[0]);
    // 10 km/h above it KC is 1 + 0.010 × 10 or 1 - 0.010 × 10: 703.7812... / 1.1 = 639.8011..., / 0.9 = 781.9791...
    assert_eq!(ebi(10, 80, 90), Ok(778_552));
    assert_eq!(ebi(-10, 80, 90), Ok(920_730));
    // 1 km/h above it: V² = 638.9660..., over 0.88806 × 1.01 = 712.3838..., and 5.55 V = 140.2916...
    assert_eq!(ebi(10, 90, 91), Ok(852_676));
    // At VC and below it KC is 1, whatever nC.
    for (nc, vc) in [(10, 90), (-10, 90), (10, 95), (-10, 400), (0, 0)] {
        assert_eq!(ebi(nc, vc, 90), Ok(842_532), "nC {nc}, VC {vc}");
    }
    let kc = |nc, vc, v| Coefficients { nc, vc, ..FIRST_VALUES }.k_c(v);
    assert_eq!([kc(-10, 90, 89), kc(-10, 90, 90), kc(-10, 90, 91)], [1000, 1000, 990].map(|kc| fraction(kc, 1000)));
    assert_eq!([kc(10, 0, 0), kc(10, 0, 1), kc(-1, 0, 1)], [1000, 1010, 999].map(|kc| fraction(kc, 1000)));
    assert_eq!([kc(10, 0, 330), kc(-10, 0, 330)], [4300, -2300].map(|kc| fraction(kc, 1000)));
}

/// With nC -0.010 and VC 0, KC is 0 at 100 km/h and -0.5 at 150: dp is 0 and -0.222015 m/s². On 35 per mille Ki1 1.20
/// gives di = 0.41202, which carries both, and 0.90 gives 0.309015, which does not carry KC = -1 at 200.
///
/// T = 5.55 s, Vβ = V - 2.286711: at 100 km/h 25.491066..., EBI = 141.4754... + 649.7944... / 0.82404 = 788.5472...; at
/// 150 km/h 39.379955..., EBI = 218.5587... + 1550.7809... / 0.38001 = 4080.8949...
#[test]
fn kc_below_0() {
    let falling = high_speed(-10, 0);
    let carried = Coefficients { inertia: slopes(120, 100, 110, 0, -21), ..falling.coefficients };
    assert_eq!(step(ep(carried), 100, 0, 35).map(|ways| ways[0]), Ok(930_023));
    assert_eq!(step(ep(carried), 150, 0, 35).map(|ways| ways[0]), Ok(4_299_454));
    assert_eq!(step(falling, 200, 0, 35), Err(10));
    for gradient in [0, -1] {
        assert_eq!([100, 150, 330].map(|v| step(falling, v, 0, gradient)), [Err(10); 3], "{gradient}");
    }
}

/// Section 7.2: Ki1 strictly above i1, Ki3 at i2 and below it.
#[test]
fn thresholds_of_the_slope() {
    for (i1, i2, factors) in [
        (0, 0, [(-1, 120), (0, 120), (1, 80)]),
        (0, -1, [(-1, 120), (0, 99), (1, 80)]),
        (1, -2, [(-1, 99), (1, 99), (2, 80)]),
        (10, -10, [(10, 99), (11, 80), (-9, 99)]),
        (10, -10, [(-10, 120), (-11, 120), (9, 99)]),
        (35, -35, [(35, 99), (-34, 99), (-35, 120)]),
        (34, -34, [(35, 80), (34, 99), (-34, 120)]),
    ] {
        for (gradient, hundredths) in factors {
            let wanted = fraction(hundredths * 981 * i64::from(gradient), 10_000_000);
            assert_eq!(di(gradient, slopes(80, 99, 120, i1, i2)), wanted, "i1 {i1}, i2 {i2}, {gradient} per mille");
        }
    }
}

/// The same through the step model, to the millimetre: on -10 with i2 = -10 Vβ is 25 + 5.55 × 1.20 × 0.0981 m/s.
#[test]
fn thresholds_in_the_step_model() {
    let ebi = |i1, i2, gradient| {
        let inertia = slopes(80, 99, 120, i1, i2);
        step(ep(Coefficients { inertia, ..FIRST_VALUES }), 90, 0, gradient).map(|ways| ways[0])
    };
    for gradient in -35..=35 {
        // Which of the three holds is said here by the whole numbers' formula with that Ki in every place.
        let with = |ki| {
            let inertia = slopes(ki, ki, ki, 0, 0);
            by_hand((ep(Coefficients { inertia, ..FIRST_VALUES }), 35), 90, 0, gradient).map(|ways| ways[0])
        };
        for (i1, i2) in [(0, 0), (0, -21), (1, -1), (10, -10), (35, -35), (34, 0), (0, -34)] {
            let ki = match gradient {
                _ if gradient > i1 as i32 => 80,
                _ if gradient <= i2 => 120,
                _ => 99,
            };
            assert_eq!(ebi(i1, i2, gradient), with(ki), "i1 {i1}, i2 {i2}, {gradient} per mille");
        }
    }
}

/// Uphill 1 km/h stops in a dead time of 20 s by the slope alone, in V² / (2 di): 25/324 over 2 × Ki × 9.81 × i / 1000.
/// Downhill, without dead time and with full brake after 0.01 s, 36 km/h stop in 0.1 - 0.0001 × (di/2 + dp/6) m and
/// V2² / (2 (dp + di)), where V2 = 10 - 0.01 × (di + dp/2) and dp = 0.9 × 0.779.
fn ramp_by_hand(gradient: i32, ki: u32) -> Fraction {
    let di = fraction(i64::from(ki) * 981 * i64::from(gradient), 10_000_000);
    let whole = |number| fraction(number, 1);
    if gradient > 0 {
        return fraction(25, 324) / (whole(2) * di);
    }
    let dp = fraction(7011, 10_000);
    let v2 = whole(10) - fraction(1, 100) * (&di + &dp / whole(2));
    let s2 = fraction(1, 10) - fraction(1, 10_000) * (&di / whole(2) + &dp / whole(6));
    s2 + &v2 * &v2 / (whole(2) * (dp + di))
}

#[test]
fn thresholds_in_the_ramp() {
    // On 1 per mille the slope alone would take more than 20 s.
    for gradient in (-35..=35).filter(|&gradient| gradient != 1) {
        for (i1, i2) in [(0, 0), (0, -21), (3, -2), (10, -10), (35, -35), (34, 0), (0, -34)] {
            let ki = match gradient {
                _ if gradient > i1 as i32 => 80,
                _ if gradient <= i2 => 120,
                _ => 99,
            };
            let (v, tm, tr) = if gradient > 0 { (1, 2000, 1) } else { (36, 0, 1) };
            let inertia = slopes(80, 99, 120, i1, i2);
            let place = ramp_by_hand(gradient, ki);
            let what = format!("i1 {i1}, i2 {i2}, {gradient} per mille");
            assert_eq!(greatest_place(100, gradient, v, tm, tr, inertia), Ok((place.clone(), place.clone())), "{what}");
            let Stop { distance, moment } = ramp(100, gradient, v, tm, tr, inertia).expect("strong enough");
            let over = fraction(distance.into(), 1) - place * fraction(1000, 1);
            assert!(fraction(0, 1) <= over && over < fraction(2, 1), "{what}");
            assert!(keeps_promise(100, gradient, v, tm, tr, distance, moment, inertia), "{what}");
        }
    }
}

/// BW 45: dp = 0.9 × 0.40225 = 0.362025. On -35 Ki3 0.90 takes 0.309015 of it, which leaves 0.05301, 0.91 0.3124485.
#[test]
fn too_weak_a_ramp() {
    let at = |ki3, i2| ramp(45, -35, 36, 200, 400, slopes(120, 120, ki3, 35, i2));
    assert!(at(90, 0).is_ok() && at(90, -35).is_ok());
    assert_eq!([at(91, 0), at(91, -35)], [Err(10); 2]);
    // On -34 the threshold -34 takes Ki3, -35 Ki2.
    let at = |i2| ramp(45, -34, 36, 200, 400, slopes(120, 120, 80, 35, i2));
    assert!(at(-34).is_ok());
    assert_eq!(at(-35), Err(10));
}

/// Strong enough or not, by whole numbers: 10^6 dp is 9 × (685 BW + 9400), and 10^7 × 0.05 is 500,000.
#[test]
fn ramps_at_random() {
    let mut numbers = Numbers(0x9E37_79B9_7F4A_7C15);
    let (mut accepted, mut refused) = (0, 0);
    for _ in 0..5000 {
        let (braked_weight, gradient) = (5 * numbers.within(9..=32), numbers.within(0..=70) as i32 - 35);
        let (tm, tr) = (numbers.within(0..=2000), numbers.within(1..=3000));
        let (v, inertia) = (numbers.within(1..=99), numbers.inertia());
        let inputs = format!("{braked_weight} {gradient} {v} {tm} {tr} {inertia:?}");
        let strength = 90 * (685 * i128::from(braked_weight) + 9400) + slope(inertia, gradient);
        let Ok(Stop { distance, moment }) = ramp(braked_weight, gradient, v, tm, tr, inertia) else {
            assert_eq!(ramp(braked_weight, gradient, v, tm, tr, inertia), Err(10), "{inputs}");
            assert!(strength < 500_000, "{inputs}");
            refused += 1;
            continue;
        };
        assert!(strength >= 500_000, "{inputs}");
        assert!(keeps_promise(braked_weight, gradient, v, tm, tr, distance, moment, inertia), "{inputs}");
        assert!(!keeps_promise(braked_weight, gradient, v, tm, tr, distance - 2, moment, inertia), "{inputs}");
        assert_eq!(goes_farther(braked_weight, gradient, v, v + 1, tm, tr, inertia), Ok(true), "{inputs}");
        accepted += 1;
    }
    assert!(accepted > 3000 && refused > 50, "{accepted} accepted, {refused} refused");
}

impl Numbers {
    /// A train of its own coefficients with the tenths of its delay. Every other one is of a fleet with weak brakes, so that
    /// too weak speeds are not rare.
    fn own_train(&mut self) -> (Train, i128) {
        let (train, tenths) = DELAYS[self.below(4) as usize];
        let own = self.own_coefficients();
        let weak = Coefficients { kr: self.within(30..=60), vc: 5 * self.within(0..=20), ..own };
        let coefficients = [own, weak][self.below(2) as usize];
        let (braked_weight, top_speed) = (5 * self.within(9..=32), self.within(1..=330));
        (Train { braked_weight, top_speed, coefficients, ..train }, tenths)
    }

    /// Falling more often than rising.
    fn slope(&mut self) -> i32 {
        let span = [35, 70][self.below(2) as usize];
        self.within(0..=span) as i32 - 35
    }
}

#[test]
fn steps_at_random() {
    let mut numbers = Numbers(0xD1B5_4A32_D192_ED03);
    let (mut accepted, mut refused, mut below_0) = (0, 0, 0);
    for _ in 0..20_000 {
        let (train, tenths) = numbers.own_train();
        let v = numbers.within(0..=330);
        let (v0, gradient) = (numbers.within(0..=v), numbers.slope());
        let wanted = by_hand((train, tenths), v, v0, gradient);
        assert_eq!(step(train, v, v0, gradient), wanted, "{train:?} {v} {v0} {gradient}");
        *(if wanted.is_ok() { &mut accepted } else { &mut refused }) += 1;
        let level = strength(train, v, v0, 0).0;
        below_0 += u32::from(wanted.is_ok() && level < 0);
    }
    assert!(accepted > 8000 && refused > 4000 && below_0 > 100, "{accepted}, {refused}, {below_0} with dp below 0");
}

/// With nC -0.010 and VC 50 dp is 0.44403 × (1 - 0.010 × (V - 50)) on the level: 0.0532836 at 138 km/h, 0.0488433 at 139.
fn weak_from_139() -> Train {
    high_speed(-10, 50)
}

#[test]
fn a_row_too_weak_at_its_top() {
    let to = |top_speed, places| {
        row(Curve::P, Train { top_speed, ..weak_from_139() }, 0, 0, places).map(|distances| distances.len())
    };
    assert_eq!([to(138, 139), to(138, 138), to(138, 0)], [Ok(139), Err(11), Err(11)]);
    assert_eq!([to(139, 140), to(139, 139), to(139, 0)], [Err(10); 3]);
    assert_eq!([to(330, 331), to(330, 0)], [Err(10); 2]);
    assert!(step(weak_from_139(), 138, 0, 0).is_ok() && step(weak_from_139(), 139, 0, 0) == Err(10));
}

/// On -35 Kr 0.50 and nC 0.010 from VC 0 on give 0.3895 × (1 + 0.010 V) - 0.377685: 0.04687 at 9 km/h, 0.050765 at 10.
#[test]
fn a_row_too_weak_at_its_target() {
    let train = ep(Coefficients { kr: 50, cr: 0, nc: 10, vc: 0, ..FIRST_VALUES });
    let from = |v0| row(Curve::Ebi, train, v0, -35, 331).map(|distances| distances.len());
    assert_eq!([from(0), from(9), from(10)], [Err(10), Err(10), Ok(321)]);
    assert!(step(train, 10, 0, -35).is_ok() && step(train, 330, 0, -35).is_ok());
}

/// cr 0.10, V0 100, nC -0.010 from VC 150 on, on -33 (di = -0.356103): K0 KC is 0.9 at 100 km/h, 14/15 at 150 and
/// 0.9375 × 0.9 at 160, which leaves 0.043524, 0.058325 and 0.0185473: too weak at both ends, strong between.
#[test]
fn a_row_too_weak_at_both_ends() {
    let train = |top_speed| {
        let own = Coefficients { cr: 10, nc: -10, vc: 150, ..FIRST_VALUES };
        Train { top_speed, ..ep(own) }
    };
    assert!(step(train(160), 150, 100, -33).is_ok());
    assert_eq!([100, 160].map(|v| step(train(160), v, 100, -33)), [Err(10); 2]);
    assert_eq!([150, 160].map(|top_speed| row(Curve::P, train(top_speed), 100, -33, 331)), [Err(10), Err(10)]);
}

/// A row's weakest speed is its first or its last: between two strong ones none is too weak.
///
/// If nC is not below 0, neither K0 nor KC falls with V, and KC is not below 0. If nC is below 0, write K0 = 1 - c/V. Up
/// to VC the product K0 KC is 1 - c/V, which is concave. Above it, with m = -nC, it is (1 - c/V)(1 + m VC - m V), that is
/// 1 + m VC + m c - m V - c (1 + m VC)/V, which is concave too, and at VC its slope drops by m (1 - c/VC) on the way from
/// one to the other. So it is concave from V0 on, and such a function is least at an end. (V0 = 0 has K0 = 1 throughout.)
/// Hence a climb too, once it has come to a too weak speed, would find none that is strong enough farther up.
#[test]
fn never_too_weak_in_the_middle_alone() {
    let mut numbers = Numbers(0xA076_1D64_78BD_642F);
    let mut ends = [0; 4];
    for _ in 0..3000 {
        let (train, _) = numbers.own_train();
        let (v0, gradient) = (numbers.within(0..=train.top_speed), numbers.slope());
        let weak = |v| weak(train, v, v0, gradient);
        let [first, last] = [v0, train.top_speed].map(weak);
        assert_eq!((v0..=train.top_speed).any(weak), first || last, "{train:?} {v0} {gradient}");
        ends[usize::from(first) + 2 * usize::from(last)] += 1;
    }
    assert!(ends.iter().all(|&count| count > 30), "strong at both ends, weak at V0, at the top, at both: {ends:?}");
}

#[test]
fn rows_at_random() {
    let mut numbers = Numbers(0x0123_4567_89AB_CDEF);
    let (mut accepted, mut refused, mut strong_at_v0) = (0, 0, 0);
    for _ in 0..200 {
        let (train, tenths) = numbers.own_train();
        let (v0, gradient) = (numbers.within(0..=train.top_speed), numbers.slope());
        let ways: Result<Vec<[u32; 4]>, u32> =
            (v0..=train.top_speed).map(|v| by_hand((train, tenths), v, v0, gradient)).collect();
        let wanted = ways.map(|ways| ways.into_iter().map(|[.., p]| p).collect::<Vec<u32>>());
        assert_eq!(row(Curve::P, train, v0, gradient, 331), wanted, "{train:?} {v0} {gradient}");
        let too_short = if wanted.is_ok() { 11 } else { 10 };
        assert_eq!(row(Curve::P, train, v0, gradient, 0), Err(too_short), "{train:?} {v0} {gradient}");
        *(if wanted.is_ok() { &mut accepted } else { &mut refused }) += 1;
        strong_at_v0 += u32::from(wanted.is_err() && !weak(train, v0, v0, gradient));
    }
    assert!(accepted > 60 && refused > 60 && strong_at_v0 > 20, "{accepted}, {refused}, {strong_at_v0} strong at V0");
}

/// P of 138 km/h to 0 is 5.55 V + 1469.4444... / 0.1065672 + 5.55 V + 3 V = 14,329.39981... m with V = 115/3 m/s, that of
/// 137 km/h 13,081.00001... m. Farther from the signal the climb ends at 139, which is too weak.
#[test]
fn a_climb_ended_by_weakness() {
    let train = weak_from_139();
    assert_eq!(step(train, 138, 0, 0).map(|ways| ways[3]), Ok(14_329_400));
    assert_eq!(step(train, 137, 0, 0).map(|ways| ways[3]), Ok(13_081_001));
    let sheet = |distance| line(&[(0, 0)], distance, 0);
    for (distance, permitted) in [(13_081, 136), (13_082, 137), (14_329, 137), (14_330, 138), (400_000, 138)] {
        let right = answer(0, permitted, Mark::Curve);
        assert_eq!(query(train, &sheet(distance)), Ok(right), "{distance} m");
        assert_eq!(verdict(train, &sheet(distance), right), Ok(()), "{distance} m");
    }
    // The train's own top speed may come first.
    for top_speed in [137, 138, 139] {
        let train = Train { top_speed, ..train };
        assert_eq!(query(train, &sheet(400_000)), Ok(answer(0, top_speed.min(138), Mark::Curve)), "top {top_speed}");
    }
}

/// On -35 with Ki3 1.20 and Kr 0.60, 0.4674 × KC - 0.41202 is 0.05538 up to VC 50, but with nC 0.010 0.060054 at 51 and
/// 0.10212 at 60 km/h: from VC on the way gets shorter. T is 5.55 s, Vβ is V + 2.286711, so P, 11.1 Vβ + 3 V + Vβ² over
/// twice that, is 2,499.176... m at 49, 2,583.531... at 50, 2,479.050... at 51 and 2,019.247... at 60 km/h. Though 51
/// fits again, 50 ends the climb.
#[test]
fn a_climb_ended_by_a_misfit_below_others_that_fit() {
    let own = Coefficients { kr: 60, nc: 10, vc: 50, inertia: slopes(90, 100, 120, 0, -21), ..FIRST_VALUES };
    let ways = [49, 50, 51, 60].map(|v| step(ep(own), v, 0, -35).map(|ways| ways[3]));
    assert_eq!(ways, [2_499_177, 2_583_532, 2_479_051, 2_019_248].map(Ok));
    let sheet = line(&[(0, -35)], 2540, 0);
    assert_eq!(query(ep(own), &sheet), Ok(answer(0, 49, Mark::Curve)));
    assert_eq!(verdict(ep(own), &sheet, answer(0, 49, Mark::Curve)), Ok(()));
    for permitted in [51, 60, 100] {
        assert_eq!(verdict(ep(own), &sheet, answer(0, permitted, Mark::Curve)), Err(Fault::Unfit(50)), "{permitted}");
    }
}

/// BW 45, Kr 0.68, KC = 1 - 0.010 × (62 - 50) and Ki2 1.08 on -18: 0.68 × 0.88 × 0.40225 - 1.08 × 9.81 × 0.018 is
/// 0.2407064 - 0.1907064, just the 0.05 m/s² that are strong enough.
#[test]
fn just_strong_enough() {
    let own = Coefficients { kr: 68, nc: -10, vc: 50, inertia: slopes(90, 108, 110, 0, -21), ..FIRST_VALUES };
    let train = |top_speed| Train { braked_weight: 45, top_speed, ..ep(own) };
    assert!(step(train(330), 62, 0, -18).is_ok());
    assert_eq!(step(train(330), 63, 0, -18), Err(10));
    assert_eq!(row(Curve::P, train(62), 0, -18, 63).map(|distances| distances.len()), Ok(63));
    assert_eq!(row(Curve::P, train(63), 0, -18, 64), Err(10));
    assert_eq!(query(train(330), &line(&[(0, -18)], 20_000, 0)), Ok(answer(0, 62, Mark::Curve)));
}

#[test]
fn answers_beyond_a_weak_speed_are_turned_down() {
    let (train, far, near) = (weak_from_139(), line(&[(0, 0)], 400_000, 0), line(&[(0, 0)], 14_329, 0));
    for (sheet, permitted, mark, wanted) in [
        (&far, 138, Mark::Curve, Ok(())),
        (&far, 139, Mark::Curve, Err(Fault::Weak(139))),
        (&far, 330, Mark::Curve, Err(Fault::Weak(139))),
        (&far, 331, Mark::Curve, Err(Fault::Permitted)),
        (&far, 137, Mark::Curve, Err(Fault::Slow)),
        (&far, 0, Mark::Curve, Err(Fault::Slow)),
        (&far, 0, Mark::Release, Err(Fault::Mark)),
        // Of two faults below it the lower speed's is told.
        (&near, 139, Mark::Curve, Err(Fault::Unfit(138))),
        (&near, 137, Mark::Curve, Ok(())),
    ] {
        assert_eq!(verdict(train, sheet, answer(0, permitted, mark)), wanted, "{permitted} {mark}");
    }
    assert_eq!(exact_p(train, 139, 0, 0), Err(10));
}

/// The overlap of 120 m is on the level, where the release speed is document 01's 37; ahead Ki2 is 0.99 on -22, so di is
/// -0.2136618. With nC -0.010 and VC 0, K0 KC is 0.95 × 0.63 at 37 km/h and (1 - 0.05 × 37/38) × 0.62 at 38, which
/// leaves 0.0520901 and 0.0482341. P of 37 km/h to itself is about 405.5 m.
#[test]
fn a_climb_ended_just_above_the_release_speed() {
    let own = Coefficients { nc: -10, vc: 0, inertia: slopes(90, 99, 110, 0, -35), ..FIRST_VALUES };
    let sheet = |distance| line(&[(0, -22), (distance - 200, 0)], distance, 120);
    let curve = answer(37, 37, Mark::Curve);
    assert_eq!(query(ep(own), &sheet(1000)), Ok(curve));
    assert_eq!(verdict(ep(own), &sheet(1000), curve), Ok(()));
    assert_eq!(verdict(ep(own), &sheet(1000), answer(37, 38, Mark::Curve)), Err(Fault::Weak(38)));
    assert_eq!(query(ep(own), &sheet(400)), Ok(answer(37, 37, Mark::Release)));
    assert_eq!(verdict(ep(own), &sheet(400), answer(37, 37, Mark::Release)), Ok(()));
    // One per mille more, -0.2233737, and 37 km/h, which is V0, is too weak itself.
    let steeper = line(&[(0, -23), (800, 0)], 1000, 120);
    assert_eq!(query(ep(own), &steeper), Err(10));
    assert_eq!(verdict(ep(own), &steeper, curve), Err(Fault::Refused(10)));
}

/// On -20 the overlap of 120 m gives 30 km/h. Kr 0.40, nC -0.010 and VC 0 leave 0.3116 × 0.95 × 0.70 - 0.1962 = 0.011
/// there; without overlap V0 is 0, and 0.3116 × (1 - 0.010 V) - 0.1962 is 0.05308 at 20 km/h and 0.049964 at 21.
#[test]
fn a_target_too_weak_is_refused() {
    let train = ep(Coefficients { kr: 40, nc: -10, vc: 0, ..FIRST_VALUES });
    assert_eq!(query(train, &line(&[(0, -20)], 5000, 120)), Err(10));
    assert_eq!(query(train, &line(&[(0, -20)], 5000, 0)), Ok(answer(0, 20, Mark::Curve)));
    // V0 = 0 too weak, though 10 km/h are strong enough.
    let rising = ep(Coefficients { kr: 50, cr: 0, nc: 10, vc: 0, ..FIRST_VALUES });
    assert_eq!(query(rising, &line(&[(0, -35)], 5000, 0)), Err(10));
    assert!(step(rising, 10, 0, -35).is_ok());
}

/// An overlap of 120 m, TM 2 s, TR 4 s, dp = 0.7011: the way is 6 V - 18 di - 16/6 dp + V2² / (2 (dp + di)) with
/// V2 = V - 6 di - 2 dp.
///
/// On -20 with Ki2 0.80 that is 119.565 m from 32 km/h and 125.605 m from 33, with 1.20 114.164 m from 28 and 120.559 m
/// from 29; on 20 with Ki1 0.80 115.950 m from 42 and 120.679 m from 43, with 1.20 118.971 m from 45 and 123.552 m from
/// 46. The first values have 30 and 43: 116.769 m and 122.973 m from 31, 117.846 m and 122.558 m from 44.
#[test]
fn release_speeds_of_their_own() {
    let release = |gradient, own: Coefficients| query(ep(own), &line(&[(0, gradient)], 5000, 120)).map(|a| a.release);
    let with = |ki1, ki2, ki3, i1, i2| Coefficients { inertia: slopes(ki1, ki2, ki3, i1, i2), ..FIRST_VALUES };
    for (own, down, up) in [
        (FIRST_VALUES, 30, 43),
        (with(80, 80, 110, 0, -21), 32, 42),
        (with(120, 120, 110, 0, -21), 28, 45),
        // Ki3 and Ki2 by the thresholds.
        (with(80, 120, 80, 20, -20), 32, 45),
        (with(80, 120, 80, 19, -21), 28, 42),
    ] {
        assert_eq!((release(-20, own), release(20, own)), (Ok(down), Ok(up)), "{own:?}");
    }
    // The other six are no part of the ramp, whose 0.9 does not move.
    for own in [(0, 0, 150, 0, 10, 0), (200, 50, 57, 10, -2, 100), (130, 10, 100, 5, -1, 0)] {
        let (dt, h, kr, cr, nc, vc) = own;
        let own = Coefficients { dt, h, kr, cr, nc, vc, ..FIRST_VALUES };
        assert_eq!((release(-20, own), release(20, own)), (Ok(30), Ok(43)), "{own:?}");
    }
}

/// The third demand of those release speeds with the train's own inertia: the first one's answers are turned down.
#[test]
fn release_speeds_of_other_inertias_are_turned_down() {
    let sheet = line(&[(0, -20)], 5000, 120);
    let with = |ki2| ep(Coefficients { inertia: slopes(90, ki2, 110, 0, -21), ..FIRST_VALUES });
    let [light, first, heavy] = [80, 100, 120].map(with);
    let right = |train| query(train, &sheet).expect("strong enough");
    for train in [light, first, heavy] {
        assert_eq!(verdict(train, &sheet, right(train)), Ok(()), "{train:?}");
    }
    assert_eq!(verdict(light, &sheet, right(first)), Err(Fault::Short));
    assert_eq!(verdict(heavy, &sheet, right(first)), Err(Fault::Beyond(29)));
    assert_eq!(verdict(first, &sheet, right(light)), Err(Fault::Beyond(31)));
}

/// Without overlap V0 is 0, and the climb can be made in whole numbers.
#[test]
fn climbs_at_random() {
    let mut numbers = Numbers(0xE703_7ED1_A0B4_28DB);
    let mut ends = [0; 5];
    for _ in 0..400 {
        let (train, tenths) = numbers.own_train();
        let (gradient, distance) = (numbers.slope(), numbers.within(1..=20_000));
        let sheet = line(&[(0, gradient as i16)], distance, 0);
        let p = |v| by_hand((train, tenths), v, 0, gradient).map(|[.., p]| p);
        let fitting = (0..=train.top_speed).take_while(|&v| p(v).is_ok_and(|p| p <= 1000 * distance)).last();
        let wanted = match (p(0), fitting) {
            (Err(refusal), _) => Err(refusal),
            (Ok(_), None) => Ok(answer(0, 0, Mark::Release)),
            (Ok(_), Some(permitted)) => Ok(answer(0, permitted, Mark::Curve)),
        };
        assert_eq!(query(train, &sheet), wanted, "{train:?} {gradient} {distance}");
        if let Ok(answer) = wanted {
            assert_eq!(verdict(train, &sheet, answer), Ok(()), "{train:?} {gradient} {distance}");
        }
        let end = match wanted {
            Err(_) => 0,
            Ok(Answer { mark: Mark::Release, .. }) => 1,
            Ok(Answer { permitted, .. }) if permitted == train.top_speed => 2,
            Ok(Answer { permitted, .. }) => 3 + usize::from(p(permitted + 1).is_err()),
        };
        ends[end] += 1;
    }
    let told = "refused, release, top speed, distance, weakness";
    assert!(ends.iter().all(|&count| count > 15), "{told}: {ends:?}");
}

/// A train without electropneumatic brake has 3.5 + 0.15 × 6² = 8.9 s for its 600 m.
///
/// With the first values T = 1.0 + 11.57 s: EBI = 314.25 + 703.7812..., SBI 314.25 more, W and P 37.5. With T = 0, KC =
/// 1 + 0.010 × 90 and Kr 1.50, dp = 2.22015: EBI = 625 / 4.4403 = 140.7562..., SBI 25 more. With Kr 0.30 and KC =
/// 1 - 0.010 V, on -10: 0.2337 × KC - 0.0981 is 0.051468 at 36 km/h and 0.049131 at 37. P is about 2.0 km at 36, the
/// signal 5 km away; 36 km/h have the ceilings 4320 + 480, 600 and 900.
#[test]
fn lines_of_the_tables() {
    let printed = reference::tables::printed();
    for line in [
        "own_step 130 10 57 5 0 150 90 100 110 0 -21 90 0 0 = 0 1018032 1332282 1369782 1407282",
        "own_step 0 0 150 0 10 0 90 100 110 0 -21 90 0 0 = 0 140757 165757 203257 240757",
        "own_step 130 10 57 5 0 152 90 100 110 0 -21 90 0 0 = 12 0 0 0 0",
        "own_step 0 0 0 0 0 0 0 0 0 0 0 50 51 36 = 4 0 0 0 0",
        "own_step 130 10 57 5 0 150 90 100 110 0 1 90 0 36 = 5 0 0 0 0",
        "own_ramp 79 100 110 0 -21 36 1 = 5 0 0",
        "own_ramp 79 100 110 0 -21 11 101 = 3 0 0",
        "own_ramp 79 100 110 0 -21 11 1 = 12 0 0",
        "own_query 200 50 30 10 -10 0 90 100 110 0 -21 -10 0 0 = 0 0 36 1 4800 4920 5220 65535 0",
        "own_query 130 10 29 5 0 150 90 100 110 0 -21 0 0 0 = 12 0 0 0 0 0 0 0 0",
    ] {
        assert!(printed.lines().any(|printed| printed == line), "{line}");
    }
}
