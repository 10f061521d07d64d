//! Rows: any speed that is too weak refuses one, before its list is found too short, and nothing is written.
use super::counts::Counts;
use super::step::{check, check_row};
use super::{gradient, train};
use approach::{Coefficients, Kmh, Train, CURVES};
use inputs::{Random, EXAMPLE_TRAIN, SPANS};

/// Any in one round, then such as make the brake weaker above a low VC, not rarely by all of it, then such as make it stronger.
fn coefficients(random: &mut Random, round: usize) -> Coefficients {
    let coefficients = random.any_coefficients();
    let (nc, vc) = (1 + random.below(10) as i32, Kmh(5 * random.below(30) as u32));
    match round % 3 {
        0 => coefficients,
        1 => Coefficients { nc: -nc, vc, ..coefficients },
        _ => Coefficients { nc, vc, ..coefficients },
    }
}

/// What decides a row: the refusal of a distance from V0 and of one from the top speed.
fn ends(t: Train, v0: u32, gradient: i32) -> [u32; 2] {
    [v0, t.top_speed.0].map(|v| check(t, v, v0, gradient))
}

fn note(counts: &mut Counts, t: Train, v0: u32, ends: [u32; 2], refusal: u32) {
    let Coefficients { nc, vc: Kmh(vc), .. } = t.coefficients;
    let top = t.top_speed.0;
    counts.refusal(refusal);
    counts.note("strong at V0, too weak at the top", ends == [0, 10] && refusal == 10);
    counts.note("too weak at V0", ends[0] == 10 && refusal == 10);
    counts.note("too weak at V0, strong at the top", ends == [10, 0] && refusal == 10);
    counts.note("accepted, the brake falling", refusal == 0 && nc < 0 && (v0..top).contains(&vc));
    counts.note("accepted, the brake growing", refusal == 0 && nc > 0 && (v0..top).contains(&vc));
    counts.note("accepted, VC at V0", refusal == 0 && nc != 0 && vc == v0);
}

/// Document 02: a row is refused just where one of its distances is; the reference has looked at each.
#[test]
fn at_random() {
    let mut random = Random(111);
    let mut counts = Counts::default();
    for round in 0..6_000 {
        let coefficients = coefficients(&mut random, round);
        let (t, gradient) = (train(&mut random, coefficients), gradient(&mut random));
        let top = t.top_speed.0;
        let v0 = match random.below(8) {
            0 => t.coefficients.vc.0.min(top),
            1 => 0,
            _ => random.below(u64::from(top) + 1) as u32,
        };
        let (needed, ends) = ((top - v0 + 1) as usize, ends(t, v0, gradient));
        let places = needed + random.below(20) as usize;
        let refusal = check_row(CURVES[round % 4], t, v0, gradient, places);
        note(&mut counts, t, v0, ends, refusal);
        let brief = check_row(CURVES[(round + 1) % 4], t, v0, gradient, random.below(needed as u64) as usize);
        assert_eq!(brief, if refusal == 0 { 11 } else { refusal }, "{t:?}, V0 {v0}, i {gradient}");
        counts.note("too weak at the top, in too few places", ends == [0, 10] && brief == 10);
        counts.note("too few places alone", brief == 11);
    }
    counts.hold("answers with 0", 2_000);
    counts.hold("strong at V0, too weak at the top", 300);
    counts.hold_all(30);
}

/// Every end of every span is accepted and nothing beyond, by the row of each curve.
#[test]
fn at_the_ends_and_just_outside() {
    for (curve, span) in CURVES.into_iter().flat_map(|curve| SPANS.iter().map(move |span| (curve, span))) {
        let with = |number| {
            let coefficients = span.with(Coefficients::FIRST_VALUES, number);
            check_row(curve, Train { coefficients, ..EXAMPLE_TRAIN }, 90, 0, 11)
        };
        assert!(span.ends().into_iter().all(|end| with(end) == 0), "{curve} {span:?}");
        assert!(span.outside().into_iter().all(|outside| with(outside) == 12), "{curve} {span:?}");
    }
}

/// Said without the reference: 88 km/h is the last at which this brake, ever weaker, gives 0.05 m/s² on the level.
#[test]
fn up_to_the_last_strong_speed() {
    for curve in CURVES {
        let refusal = |cr, top_speed, v0, places| {
            let coefficients = Coefficients { cr, nc: -10, vc: Kmh(0), ..Coefficients::FIRST_VALUES };
            let t = Train { top_speed: Kmh(top_speed), coefficients, ..EXAMPLE_TRAIN };
            check_row(curve, t, v0, 0, places)
        };
        assert_eq!([1, 87, 88, 89, 330].map(|top| refusal(5, top, 0, 331)), [0, 0, 0, 10, 10]);
        assert_eq!([88, 89].map(|top| refusal(5, top, 0, 5)), [11, 10]);
        assert_eq!([88, 89].map(|top| refusal(5, top, 85, 5)), [0, 10]);
        assert_eq!([87, 88].map(|top| refusal(10, top, 85, 5)), [0, 10], "this cr takes off more");
    }
}
