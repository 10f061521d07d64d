//! The peers, with which the library's times are compared, against the reference: they must not be fast by being wrong.
use approach::raw::{Answer, Back, Distances, Limits, Signal, Stop, CURVES};
use approach::{Coefficients, Kmh, Train};
use bench::plain::sheet;
use bench::{own, plain};
use inputs::{inertia_on_paper, on_paper, Query, Random, Walked};
use reference::step::Curve;

/// The first values in every other round, as in the benchmark.
fn coefficients(random: &mut Random, round: usize) -> Coefficients {
    if round.is_multiple_of(2) {
        Coefficients::FIRST_VALUES
    } else {
        random.any_coefficients()
    }
}

fn any_train(random: &mut Random, round: usize) -> Train {
    Train { coefficients: coefficients(random, round), ..random.train() }
}

#[test]
fn distances() {
    let mut random = Random(91);
    let mut accepted = 0;
    for round in 0..60_000 {
        let (train, gradient, v) = (any_train(&mut random, round), random.gradient(), random.near(0, 330));
        let v0 = random.below(u64::from(v) + 1) as u32;
        let Ok([ebi, sbi, w, p]) = reference::step::step(on_paper(train), v, v0, gradient) else { continue };
        let distances = Distances { refusal: 0, ebi, sbi, w, p };
        for step in [plain::step::step, own::step::step] {
            assert_eq!(step(train.into(), v, v0, gradient), distances, "{train:?}, V {v}, V0 {v0}, i {gradient}");
        }
        accepted += 1;
    }
    assert!(accepted > 30_000, "{accepted}");
}

#[test]
fn rows() {
    let mut random = Random(95);
    let mut accepted = 0;
    for round in 0..600 {
        let (train, gradient, v0) = (any_train(&mut random, round), random.gradient(), random.below(100) as u32);
        let (curve, on_curve) = [(Curve::Ebi, CURVES[0]), (Curve::P, CURVES[3])][round / 2 % 2];
        let Ok(expected) = reference::step::row(curve, on_paper(train), v0, gradient, 331) else { continue };
        for fill in [plain::step::row, own::step::row] {
            let mut row = vec![0; expected.len()];
            fill(on_curve, train.into(), v0, gradient, &mut row);
            assert_eq!(row, expected, "{curve:?}, {train:?}, V0 {v0}, i {gradient}");
        }
        accepted += 1;
    }
    assert!(accepted > 200, "{accepted}");
}

#[test]
fn ramp_answers() {
    let mut random = Random(92);
    let mut accepted = 0;
    for round in 0..30_000 {
        let (weight, gradient) = (random.braked_weight(), random.gradient());
        let (v, tm, tr) = (random.near(1, 100), random.near(0, 2000), random.near(1, 3000));
        let inertia = coefficients(&mut random, round).inertia;
        let on_paper = inertia_on_paper(inertia);
        let Ok(stop) = reference::ramp::ramp(weight, gradient, v, tm, tr, on_paper) else { continue };
        let expected = Stop { refusal: 0, distance: stop.distance, moment: stop.moment };
        for ramp in [plain::ramp::ramp, own::ramp::ramp] {
            let answer = ramp(weight, gradient, v, tm, tr, inertia.into());
            assert_eq!(answer, expected, "BW {weight}, i {gradient}, V {v}, {tm}, {tr}, {inertia:?}");
        }
        accepted += 1;
    }
    assert!(accepted > 15_000, "{accepted}");
}

#[test]
fn ceilings() {
    for permitted in (0..=1000).chain([u32::MAX]) {
        let expected = match reference::ceilings::ceilings(permitted) {
            Ok([w, sbi, ebi]) => Limits { refusal: 0, w, sbi, ebi },
            Err(refusal) => Limits { refusal, w: 0, sbi: 0, ebi: 0 },
        };
        for ceilings in [plain::ceilings::ceilings, plain::ceilings::stored] {
            assert_eq!(ceilings(permitted), expected, "permitted {permitted}");
        }
    }
}

/// Half of them with a byte changed.
fn any_sheet(random: &mut Random) -> Vec<u8> {
    let (stretches, signals) = (1 + random.below_any(&[12, 512]), random.below_any(&[8, 65]));
    let mut bytes = random.line(stretches, signals).written();
    if random.below(2) == 0 {
        let at = random.below_any(&[20, bytes.len() as u32]) as usize;
        bytes[at] ^= 1 + random.below(255) as u8;
    }
    bytes
}

#[test]
fn sheets() {
    let mut random = Random(93);
    let mut seen = [0; 12];
    for _ in 0..6_000 {
        let (bytes, number) = (any_sheet(&mut random), random.below_any(&[8, 66]));
        let expected = match reference::sheet::signal(&bytes, number) {
            Ok(signal) => Signal { refusal: 0, place: signal.place, overlap: signal.overlap.into() },
            Err(refusal) => Signal { refusal, place: 0, overlap: 0 },
        };
        assert_eq!(sheet::signal(&bytes, number), expected, "signal {number} of {bytes:?}");
        seen[expected.refusal as usize] += 1;
    }
    assert!([0, 7, 8].iter().all(|&refusal| seen[refusal] > 500), "{seen:?}");
}

/// The answer of both peers, which is the reference's.
fn both_back(w: &Walked, step: u32) -> Back {
    let expected = w.expected(step);
    for back in [plain::walk::back, own::walk::back] {
        assert_eq!(back(&w.sheet, w.signal, w.head, w.length, step), expected, "step {step} of {w:?}");
    }
    expected
}

#[test]
fn steps_back() {
    let mut random = Random(97);
    let (mut seen, mut ended) = ([0; 12], 0);
    for _ in 0..6_000 {
        let w = random.any_walk();
        for step in [0, random.below_any(&[8, 512]), u32::MAX] {
            let answer = both_back(&w, step);
            seen[answer.refusal as usize] += 1;
            ended += answer.end;
        }
    }
    assert!([0, 2, 7, 8, 9].iter().all(|&refusal| seen[refusal] > 500), "{seen:?}");
    assert!(ended > 5_000 && seen[0] - ended > 5_000, "{ended} ended of {seen:?}");
}

/// The answer of both peers, which is the reference's. Of train, coefficients and times they do not judge.
fn both(q: &Query) -> Option<Answer> {
    let Query { train, tm, tr, sheet, signal, head } = q;
    let expected = q.expected();
    if matches!(expected.refusal, 1..=6 | 12) {
        return None;
    }
    for query in [plain::query::query, own::query::query] {
        assert_eq!(query((*train).into(), *tm, *tr, sheet, *signal, *head), expected, "{q:?}");
    }
    Some(expected)
}

#[test]
fn queries() {
    let mut random = Random(94);
    let mut seen = [0; 12];
    for round in 0..4_000 {
        let line = random.short_line();
        let signal = random.below(line.places.len() as u64 + 1) as u32;
        let head = random.below_any(&[1, line.end]);
        let (tm, tr) = (random.below(2001) as u32, 1 + random.below(3000) as u32);
        let (mut train, sheet) = (any_train(&mut random, round), line.written());
        train.top_speed = Kmh(1 + random.below(330) as u32);
        let Some(answer) = both(&Query { train, tm, tr, sheet, signal, head }) else { continue };
        seen[answer.refusal as usize] += 1;
    }
    assert!([0, 8, 9, 10].iter().all(|&refusal| seen[refusal] > 50), "{seen:?}");
}

/// Lines of few gradients, so that several stretches have the least.
#[test]
fn governing_stretches() {
    let mut random = Random(98);
    for _ in 0..2_000 {
        both(&random.tied_query().1);
        let w = random.tied_walk();
        for step in [0, random.below_any(&[8, 512])] {
            both_back(&w, step);
        }
    }
}

/// Climbs that mostly end for lack of brake.
#[test]
fn far_queries() {
    let mut random = Random(96);
    let answers = (0..500).filter_map(|_| both(&random.far_query()));
    let ended = answers.filter(|answer| answer.refusal == 0 && answer.permitted < 330).count();
    assert!(ended > 200, "{ended}");
}
