//! Document 02, Card 5: trains with coefficients of their own. A too weak speed above the release speed ends the climb, as one that
//! does not fit.
use super::any_query;
use super::asked::{accepted, check, one_signal, refusal, sheet};
use approach::{step, Approach, Coefficients, Kmh, Mark, Metre, PerMille, Refusal, Train};
use inputs::{Query, Random, EXAMPLE_TRAIN, SPANS};
use reference::sheet::{least, read};
use std::collections::BTreeMap;

/// How the climb to the permitted speed ended.
#[derive(Clone, Copy, Debug, PartialEq, Eq, PartialOrd, Ord)]
enum Ended {
    /// Before it began.
    AtTheReleaseSpeed,
    AtTheTopSpeed,
    ByTheWay,
    ByWeakness,
}

/// The gradient ahead, and the way to the signal in millimetres.
fn ahead(q: &Query) -> (PerMille, u32) {
    let line = read(&q.sheet).expect("a sheet");
    let place = line.signals[q.signal as usize].place;
    let tail = q.head.saturating_sub(q.train.length.0);
    (PerMille(least(&line, tail, place + 1).expect("a signal on the line").into()), 1000 * (place - q.head))
}

/// By single distances: the permitted speed's is accepted and fits, the next one's is refused by 10 or does not.
fn ended(q: &Query, a: Approach) -> Ended {
    let (gradient, way) = ahead(q);
    let p = |v| step(q.train, v, a.release, gradient).map(|distances| distances.p.0);
    if a.mark == Mark::Release {
        assert!(p(a.permitted).is_ok_and(|p| p > way), "{a:?} to {q:?}");
        return Ended::AtTheReleaseSpeed;
    }
    assert!(p(a.permitted).is_ok_and(|p| p <= way), "{a:?} to {q:?}");
    if a.permitted == q.train.top_speed {
        return Ended::AtTheTopSpeed;
    }
    match p(Kmh(a.permitted.0 + 1)) {
        Ok(p) => {
            assert!(p > way, "{a:?} to {q:?}");
            Ended::ByTheWay
        }
        Err(refusal) => {
            assert_eq!(refusal, Refusal::WeakBrake, "{a:?} to {q:?}");
            Ended::ByWeakness
        }
    }
}

/// What an accepted answer may have to do with the coefficients.
fn kinds(coefficients: Coefficients, a: Approach) -> [(&'static str, bool); 4] {
    let Coefficients { dt, h, nc, vc, inertia, .. } = coefficients;
    let kc = 1000 + nc * a.permitted.0.saturating_sub(vc.0) as i32;
    [
        ("T = 0", (dt, h) == (0, 0)),
        ("i1 = i2 = 0", (inertia.i1, inertia.i2) == (PerMille(0), PerMille(0))),
        ("KC below 0 at the permitted speed", kc < 0),
        ("KC not 1 at the permitted speed", kc != 1000),
    ]
}

/// How often each refusal, each end of a climb, each end of a span and each kind was met.
#[derive(Debug, Default)]
struct Met {
    refusals: BTreeMap<u32, u32>,
    climbs: BTreeMap<Ended, u32>,
    spans: BTreeMap<(&'static str, i32), u32>,
    kinds: BTreeMap<&'static str, u32>,
}

impl Met {
    fn ask(&mut self, q: &Query) {
        let answer = check(q);
        *self.refusals.entry(answer.err().unwrap_or(0)).or_default() += 1;
        let Ok(answer) = answer else { return };
        *self.climbs.entry(ended(q, answer)).or_default() += 1;
        for (kind, met) in kinds(q.train.coefficients, answer) {
            *self.kinds.entry(kind).or_default() += u32::from(met);
        }
        for span in &SPANS {
            for end in span.ends() {
                *self.spans.entry((span.name, end)).or_default() += u32::from(span.of(&q.train.coefficients) == end);
            }
        }
    }

    /// So many were accepted, and what is asked for was met often enough.
    fn hold(&self, accepted: u32, refusals: &[u32], climbs: &[(Ended, u32)]) {
        assert!(self.refusals[&0] >= accepted, "{self:?}");
        assert!(refusals.iter().all(|refusal| self.refusals[refusal] >= 50), "{self:?}");
        assert!(climbs.iter().all(|(ended, least)| self.climbs[ended] >= *least), "{self:?}");
        assert!(self.kinds["T = 0"] >= 25 && self.kinds["i1 = i2 = 0"] >= 25, "{self:?}");
    }
}

#[test]
fn at_random() {
    let mut random = Random(131);
    let mut met = Met::default();
    for _ in 0..13_000 {
        let mut q = any_query(&mut random);
        q.train.coefficients = random.any_coefficients();
        met.ask(&q);
    }
    let climbs = [Ended::AtTheReleaseSpeed, Ended::AtTheTopSpeed, Ended::ByTheWay].map(|ended| (ended, 1_000));
    met.hold(8_000, &[1, 2, 3, 6, 7, 8, 9, 10, 12], &climbs);
    assert!(met.spans.len() == 22 && met.spans.values().all(|&count| count >= 500), "{met:?}");
}

/// Every end of every span is accepted and nothing beyond, also of coefficients that this query has no use for: its overlap has no
/// length, and its way no slope.
#[test]
fn at_the_ends_and_just_outside() {
    let with = |coefficients| {
        let train = Train { coefficients, ..EXAMPLE_TRAIN };
        refusal(&Query { train, ..one_signal(&[(0, 0)], 0) })
    };
    for span in &SPANS {
        for end in span.ends() {
            assert_eq!(with(span.with(Coefficients::FIRST_VALUES, end)), 0, "{} {end}", span.name);
        }
        for outside in span.outside() {
            assert_eq!(with(span.with(Coefficients::FIRST_VALUES, outside)), 12, "{} {outside}", span.name);
        }
    }
}

#[test]
fn far_from_the_signal() {
    let mut random = Random(132);
    let mut met = Met::default();
    for _ in 0..3_500 {
        met.ask(&random.far_query());
    }
    met.hold(2_000, &[10], &[(Ended::ByWeakness, 1_000), (Ended::AtTheTopSpeed, 500)]);
    assert!(met.kinds.values().all(|&count| count >= 25), "{met:?}");
}

/// Said without the reference: on the level this brake is strong up to 88 km/h, whose P distance is 5,951.748 m, and too weak at 89.
#[test]
fn the_last_strong_speed() {
    let coefficients = Coefficients { nc: -10, vc: Kmh(0), ..Coefficients::FIRST_VALUES };
    let answer = |top_speed, metres: u32| {
        let train = Train { top_speed: Kmh(top_speed), coefficients, ..EXAMPLE_TRAIN };
        let line = sheet(&[(0, 0)], &[(40_000, 0)], 40_001);
        let a = accepted(&Query { train, head: 40_000 - metres, ..Query::printed(line) });
        (a.permitted, a.mark)
    };
    for top_speed in [88, 89, 100, 330] {
        assert_eq!(answer(top_speed, 40_000), (Kmh(88), Mark::Curve), "{top_speed}");
        assert_eq!(answer(top_speed, 5952), (Kmh(88), Mark::Curve), "{top_speed}");
        assert_eq!(answer(top_speed, 5951), (Kmh(87), Mark::Curve), "{top_speed}");
    }
    assert_eq!(answer(87, 40_000), (Kmh(87), Mark::Curve));
}

/// A release speed that is too weak itself is refused, though a lower one, which no climb asks, were strong.
#[test]
fn too_weak_at_the_release_speed() {
    let coefficients = Coefficients { nc: -10, vc: Kmh(0), ..Coefficients::FIRST_VALUES };
    let at = |overlap, coefficients| {
        let train = Train { coefficients, length: Metre(0), ..EXAMPLE_TRAIN };
        refusal(&Query { train, ..Query::printed(sheet(&[(0, 0)], &[(40_000, overlap)], 60_000)) })
    };
    // With 20 km of overlap the release speed is 100.
    assert_eq!([0, 120, 20_000].map(|overlap| at(overlap, coefficients)), [0, 0, 10]);
    assert_eq!([0, 120, 20_000].map(|overlap| at(overlap, Coefficients::FIRST_VALUES)), [0; 3]);
}

/// The ramp takes the train's own five: Ki3 tells on a fall past the signal, and Kr, which the ramp has no use for, does not.
#[test]
fn the_release_speed_by_the_five() {
    let release = |change: fn(&mut Coefficients)| {
        let mut train = Train { length: Metre(0), ..EXAMPLE_TRAIN };
        change(&mut train.coefficients);
        let line = sheet(&[(0, 0), (1001, -30)], &[(1000, 120)], 2000);
        accepted(&Query { train, ..Query::printed(line) }).release
    };
    let first = release(|_| ());
    assert!(release(|k| k.inertia.ki3 = 80) > first && release(|k| k.inertia.ki3 = 120) < first);
    assert!(release(|k| k.inertia.i2 = PerMille(-31)) > first, "Ki2 counts on -30");
    assert_eq!(release(|k| (k.dt, k.h, k.kr, k.cr, k.inertia.ki1) = (0, 0, 150, 0, 120)), first);
}
