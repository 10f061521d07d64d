//! Single distances.
use super::counts::Counts;
use super::step::check;
use super::{gradient, train};
use approach::{step, Coefficients, Kmh, PerMille, Train};
use inputs::{Random, EXAMPLE_TRAIN, SPANS};

/// V, at VC and just above it not rarely, and mostly a V0 that is not above it.
fn speeds(random: &mut Random, coefficients: Coefficients) -> (u32, u32) {
    let v = match random.below(12) {
        0 => coefficients.vc.0,
        1 => coefficients.vc.0.saturating_add(1),
        _ => random.near(0, 330),
    };
    let v0 = if random.below(16) == 0 { random.near(0, 330) } else { random.below(u64::from(v.min(330)) + 1) as u32 };
    (v, v0)
}

/// KC in thousandths.
fn kc(coefficients: Coefficients, v: u32) -> i32 {
    1000 + coefficients.nc * v.saturating_sub(coefficients.vc.0) as i32
}

/// What an accepted distance met of the coefficients.
fn note(counts: &mut Counts, coefficients: Coefficients, v: u32, gradient: i32) {
    let Coefficients { dt, h, nc, vc: Kmh(vc), inertia, .. } = coefficients;
    let kc = kc(coefficients, v);
    counts.note("T = 0", (dt, h) == (0, 0));
    counts.note("KC below 0", kc < 0);
    counts.note("KC from 0 to below 1", (0..1000).contains(&kc));
    counts.note("KC above 1", kc > 1000);
    counts.note("V at VC", v == vc && nc != 0);
    counts.note("V just above VC", v == vc + 1 && nc != 0);
    counts.thresholds(inertia, gradient);
    counts.ends(&SPANS, &coefficients);
}

#[test]
fn at_random() {
    let mut random = Random(101);
    let (mut refusals, mut counts) = (Counts::default(), Counts::default());
    for _ in 0..120_000 {
        let (t, gradient) = (random.own_train(), random.gradient());
        let (v, v0) = speeds(&mut random, t.coefficients);
        let refusal = check(t, v, v0, gradient);
        refusals.refusal(refusal);
        if refusal == 0 {
            note(&mut counts, t.coefficients, v, gradient);
        }
    }
    // A call gives four distances.
    refusals.hold("answers with 0", 200_000 / 4);
    refusals.hold_all(500);
    counts.hold("T = 0", 500);
    counts.hold("KC below 0", 400);
    counts.hold("i1 = i2 = 0", 500);
    counts.hold_all(200);
}

/// The coefficients of a corner, each at the end that its bit says.
fn corner(bits: usize) -> Coefficients {
    let ends = SPANS.iter().enumerate().map(|(place, span)| (span, span.ends()[bits >> place & 1]));
    ends.fold(Coefficients::FIRST_VALUES, |coefficients, (span, end)| span.with(coefficients, end))
}

/// Each coefficient at either end, with each other at either end.
#[test]
fn at_every_corner() {
    let mut random = Random(102);
    let (mut counts, mut refused) = (Counts::default(), 0);
    for bits in 0..1 << SPANS.len() {
        let coefficients = corner(bits);
        for _ in 0..8 {
            let (t, gradient) = (train(&mut random, coefficients), gradient(&mut random));
            let v = random.below(331) as u32;
            let v0 = random.below(u64::from(v) + 1) as u32;
            match check(t, v, v0, gradient) {
                0 => counts.ends(&SPANS, &coefficients),
                refusal => {
                    assert_eq!(refusal, 10, "{t:?}");
                    refused += 1;
                }
            }
        }
    }
    counts.hold_all(3_000);
    assert!(refused > 1_000, "{refused}");
}

/// Nothing but a coefficient is outside, and one alone.
#[test]
fn just_outside() {
    let mut random = Random(103);
    let mut counts = Counts::default();
    for span in &SPANS {
        for outside in span.outside() {
            for _ in 0..20 {
                let coefficients = span.with(random.coefficients(), outside);
                let t = train(&mut random, coefficients);
                let v = random.below(331) as u32;
                assert_eq!(check(t, v, v / 2, gradient(&mut random)), 12, "{} {outside}: {t:?}", span.name);
                counts.note(span.name, true);
            }
        }
    }
    counts.hold_all(80);
}

/// With nC -0.010 above a VC of 0 nothing is left of the brake at 100 km/h: on a rise the slope alone brakes there. At 99 km/h the
/// better brake still helps, and at 101, where KC is below 0, it harms.
#[test]
fn without_a_brake() {
    let mut coefficients = Coefficients { nc: -10, vc: Kmh(0), ..Coefficients::FIRST_VALUES };
    let p = |coefficients, braked_weight, v| {
        let t = Train { braked_weight, coefficients, ..EXAMPLE_TRAIN };
        assert_eq!(check(t, v, 0, 20), 0);
        step(t, Kmh(v), Kmh(0), PerMille(20)).expect("an accepted distance").p
    };
    let at = |coefficients, v| [45, 100, 160].map(|weight| p(coefficients, weight, v));
    let of_first_kr = at(coefficients, 100);
    assert!(of_first_kr.iter().all(|p| *p == of_first_kr[0]), "{of_first_kr:?}");
    for kr in [30, 150] {
        coefficients.kr = kr;
        assert_eq!(at(coefficients, 100), of_first_kr, "Kr {kr}");
    }
    coefficients.kr = 30;
    let [below, above] = [99, 101].map(|v| at(coefficients, v));
    assert!(below.is_sorted_by(|weak, strong| weak > strong), "{below:?}");
    assert!(above.is_sorted_by(|weak, strong| weak < strong), "{above:?}");
}

/// KC counts above VC, not from it on.
#[test]
fn at_vc_and_above() {
    for vc in (0..=325).step_by(5) {
        let distances = |nc, v| {
            let coefficients = Coefficients { nc, vc: Kmh(vc), ..Coefficients::FIRST_VALUES };
            let t = Train { coefficients, ..EXAMPLE_TRAIN };
            assert_eq!(check(t, v, 0, 0), 0);
            step(t, Kmh(v), Kmh(0), PerMille(0)).expect("an accepted distance").ebi
        };
        let [less, same, more] = [-10, 0, 10].map(|nc| distances(nc, vc));
        assert!(less == same && same == more, "VC {vc}");
        let [less, same, more] = [-10, 0, 10].map(|nc| distances(nc, vc + 5));
        assert!(less > same && same > more, "VC {vc}: {less} {same} {more}");
    }
}
