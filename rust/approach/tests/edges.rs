//! The climbs at every edge: queries, ramp answers and distances that a millimetre or a millisecond decides, or less. The
//! reference finds the inputs, and each kind of them is counted, so that no test passes by finding none.
use approach::{raw, Approach, Brake, Inertia, Kmh, Mark, Metre, Train};
use inputs::{on_paper, Found, Line, Query, Random, EXAMPLE_TRAIN};
use reference::coefficients::FIRST_VALUES;
use reference::fraction::Fraction;
use reference::ramp::{keeps_promise, motion, ramp, Phase, Stop};
use reference::step::{exact, exact_p, row, step, Curve};
use reference::train::{di, dr};
use std::collections::BTreeSet;

const TOP: u32 = 330;
/// Where the one signal stands, farther on than any P distance is long.
const PLACE: u32 = 200_000;
/// The reference's first values of what the ramp takes.
const INERTIA: reference::coefficients::Inertia = FIRST_VALUES.inertia;

/// The metres that are 1 mm at most from a distance in millimetres, and by how many millimetres they are over it.
fn hair(distance: u32) -> Option<(u32, i32)> {
    let metres = (distance + 1) / 1000;
    let spare = 1000 * metres as i32 - distance as i32;
    (spare.abs() <= 1).then_some((metres, spare))
}

/// A line with a gradient up to the signal, the signal included, and one past it.
fn sheet(ahead: i32, past: i32, overlap: u32) -> Vec<u8> {
    let (starts, gradients) = (vec![0, PLACE + 1], vec![ahead as i16, past as i16]);
    Line { starts, gradients, places: vec![PLACE], overlaps: vec![overlap as u16], end: PLACE + overlap + 2 }.written()
}

/// The answer to an accepted query, in every field the reference's.
fn answer(q: &Query) -> Approach {
    q.check().expect("an accepted query")
}

/// The same query for a train of another top speed, which has one of 1 at least.
fn up_to(q: &Query, top_speed: u32) -> Query {
    Query { train: Train { top_speed: Kmh(top_speed.max(1)), ..q.train }, ..q.clone() }
}

/// A train of the highest top speed at the signal, on a rise, a level or a fall in turn and with an overlap or none; with
/// its gradient and its release speed. None where it is refused.
fn at_the_signal(random: &mut Random, round: i32) -> Option<(Query, i32, u32)> {
    let gradient = (round % 3 - 1) * (1 + random.below_any(&[12, 35]) as i32);
    let overlap = if round % 2 == 0 { 0 } else { 1 + random.below_any(&[20, 100, 500]) };
    let (train, tm, tr) = (random.train(), random.below_any(&[200, 2001]), 1 + random.below_any(&[400, 3000]));
    let q = Query { train, tm, tr, sheet: sheet(gradient, gradient, overlap), signal: 0, head: PLACE };
    let q = up_to(&q, TOP);
    let Kmh(release) = q.check().ok()?.release;
    Some((q, gradient, release))
}

/// The P distances of a train from its release speed on.
fn p_distances(q: &Query, release: u32, gradient: i32) -> Vec<u32> {
    row(Curve::P, on_paper(q.train), release, gradient, TOP as usize + 1).expect("an accepted row")
}

/// Asks from some metres before the signal. Where no speed but this one ends the climb, it is permitted just where its P
/// distance fits, the train's last speed or not. Answers whether that was so.
fn decides(q: &Query, release: u32, row: &[u32], v: u32, metres: u32) -> bool {
    let fits = |p: &u32| *p <= 1000 * metres;
    let (below, rest) = row.split_at((v - release) as usize);
    let alone = below.iter().all(fits) && !rest.get(1).is_some_and(fits);
    let wanted = match fits(&rest[0]) {
        true => (v, Mark::Curve),
        false if v == release => (v, Mark::Release),
        false => (v - 1, Mark::Curve),
    };
    for top_speed in BTreeSet::from([v, TOP]) {
        let q = Query { head: PLACE - metres, ..up_to(q, top_speed) };
        let Approach { release: Kmh(r), permitted: Kmh(permitted), mark, .. } = answer(&q);
        assert!(!alone || (r, (permitted, mark)) == (release, wanted), "{wanted:?} after {release}: {q:?}");
    }
    alone
}

/// What is noted is what the way to the signal has to spare; for which trains, slopes and targets, and at which speeds.
#[test]
fn p_distances_at_the_signal() {
    let mut random = Random(81);
    let (mut kinds, mut speeds) = (Found::none(), Found::none());
    for round in 0..540 {
        let Some((q, gradient, release)) = at_the_signal(&mut random, round) else { continue };
        let row = p_distances(&q, release, gradient);
        for (v, &p) in (release..).zip(&row).filter(|(_, &p)| p > 0) {
            let Some((metres, spare)) = hair(p) else { continue };
            if decides(&q, release, &row, v, metres) {
                kinds.note((spare, q.train.brake == Brake::Freight, gradient.signum(), release > 0));
                speeds.note((spare, v / 34));
            }
        }
    }
    kinds.hold(3 * 2 * 3 * 2, 4);
    speeds.hold(3 * 10, 6);
}

/// The climb's first speed, on which the mark hangs, its second and its last. The release speed is the same at any length.
#[test]
fn first_and_last_speeds() {
    let mut random = Random(82);
    let mut kinds = Found::none();
    for round in 0..54 {
        let Some((mut q, gradient, release)) = at_the_signal(&mut random, round) else { continue };
        q.train.electropneumatic = false;
        for length in 0..=1000 {
            q.train.length = Metre(length);
            for (end, v) in ["first", "second", "last"].into_iter().zip([release, release + 1, TOP]) {
                let [.., p] = step(on_paper(q.train), v, release, gradient).expect("an accepted step");
                let Some((metres, spare)) = hair(p).filter(|_| p > 0) else { continue };
                let row = p_distances(&up_to(&q, TOP.min(v + 1)), release, gradient);
                if decides(&q, release, &row, v, metres) {
                    kinds.note((spare, end, release > 0));
                }
            }
        }
    }
    kinds.hold(3 * 3 * 2, 4);
}

/// A number of at most nine decimals.
fn decimal(number: Fraction) -> f64 {
    (number * Fraction::from(1_000_000_000)).raised() as f64 / 1e9
}

/// Speeds with a braking part whose P distance to 0 is less than a micrometre from whole metres, and these metres, as
/// floating point sees it.
fn nearly_whole(train: Train, gradient: i32) -> Vec<(u32, u32)> {
    let paper = on_paper(train);
    let (t, di) = (1.0 + decimal(paper.tf()), decimal(di(gradient, INERTIA)));
    let deceleration = 0.57 * decimal(paper.dr()) + di;
    let near = |v: u32| {
        let speed = f64::from(v) / 3.6;
        let coasted = speed - di * t;
        let p = 2.0 * t * coasted + coasted * coasted / (2.0 * deceleration) + 3.0 * speed;
        let found = deceleration >= 0.05 && coasted > 0.0 && (p - p.round()).abs() < 1e-6;
        found.then_some((v, p.round() as u32))
    };
    (1..=TOP).filter_map(near).collect()
}

/// What is noted is whether the exact P distance is over the way to the signal.
#[test]
fn p_distances_a_micrometre_from_the_signal() {
    let mut kinds = Found::none();
    for (freight, braked_weight) in [false, true].into_iter().flat_map(|f| weights().map(move |w| (f, w))) {
        let brake = if freight { Brake::Freight } else { Brake::Passenger };
        for (gradient, length) in (-35..=35).flat_map(|i| (0..=1000).step_by(27).map(move |l| (i, Metre(l)))) {
            let top_speed = Kmh(TOP);
            let train = Train { brake, electropneumatic: false, braked_weight, length, top_speed, ..EXAMPLE_TRAIN };
            for (v, metres) in nearly_whole(train, gradient) {
                let q = Query { train, tm: 200, tr: 400, sheet: sheet(gradient, 0, 0), signal: 0, head: PLACE };
                let p = exact_p(on_paper(train), v, 0, gradient).expect("an accepted step");
                if decides(&q, 0, &p_distances(&q, 0, gradient), v, metres) {
                    kinds.note((p > Fraction::from(1000 * metres), freight));
                }
            }
        }
    }
    kinds.hold(2 * 2, 10);
}

fn weights() -> impl Iterator<Item = u32> {
    (45..=160).step_by(5)
}

/// What the ramp is asked.
#[derive(Clone, Copy, Debug)]
struct Ramp {
    weight: u32,
    gradient: i32,
    v: u32,
    tm: u32,
    tr: u32,
}

impl Ramp {
    /// Slow trains and short times are not rare.
    fn any(random: &mut Random) -> Ramp {
        let (weight, gradient) = (45 + 5 * random.below(24) as u32, random.below(71) as i32 - 35);
        let (v, tm, tr) =
            (random.below_any(&[15, 30, 100]), random.below_any(&[200, 2001]), random.below_any(&[400, 3000, 3000]));
        Ramp { weight, gradient, v: 1 + v, tm, tr: 1 + tr }
    }

    fn on_paper(self) -> Result<Stop, u32> {
        ramp(self.weight, self.gradient, self.v, self.tm, self.tr, INERTIA)
    }

    fn phase(self) -> Option<Phase> {
        Some(motion(self.weight, self.gradient, self.v, self.tm, self.tr, INERTIA).ok()?.stops_in())
    }

    /// Where the brake has its full force, in milliseconds.
    fn full_from(self) -> u32 {
        10 * (self.tm + self.tr)
    }

    /// The stop of accepted inputs: both numbers are the reference's, and keep the promise.
    fn stop(self) -> Stop {
        let Ramp { weight, gradient, v, tm, tr } = self;
        let Stop { distance, moment } = self.on_paper().expect("accepted inputs");
        let answer = raw::ramp(weight, gradient, v, tm, tr, Inertia::FIRST_VALUES.into());
        assert_eq!(answer, raw::Stop { refusal: 0, distance, moment }, "{self:?}");
        assert!(keeps_promise(weight, gradient, v, tm, tr, distance, moment, INERTIA), "the promise: {self:?}");
        Stop { distance, moment }
    }

    /// Spares the reference most of the stops after TM that are not a hair from whole metres: the answer is more than 1 mm,
    /// and hardly more than 2, over the place of the stop.
    fn perhaps_a_hair(self) -> bool {
        let (di, dp) = (decimal(di(self.gradient, INERTIA)), 0.9 * decimal(dr(self.weight)));
        let (v, tm, tr) = (f64::from(self.v) / 3.6, f64::from(self.tm) / 100.0, f64::from(self.tr) / 100.0);
        let v1 = v - di * tm;
        let risen = ((di * di + 2.0 * dp * v1 / tr).sqrt() - di) * tr / dp;
        let full = (v1 - (di + dp / 2.0) * tr) / (di + dp);
        let (u, braked) = match risen <= tr {
            true => (risen, risen.powi(3) / (6.0 * tr)),
            false => (tr + full, tr * tr / 6.0 + tr * full / 2.0 + full * full / 2.0),
        };
        let place = (v - di * tm / 2.0) * tm + v1 * u - di * u * u / 2.0 - dp * braked;
        (1000.0 * place + 3.0).rem_euclid(1000.0) < 4.0
    }

    /// Where the answer is a hair from an overlap of whole metres, it is the release speed just where it fits, the climb's
    /// last speed or not: a faster train gets farther by more than that. Answers what the overlap has to spare.
    fn decides_release(self, head: u32) -> Option<i32> {
        // The first metre past the signal counts for the way to it, too, which is kept from falling.
        let (overlap, spare) = hair(self.on_paper().ok()?.distance).filter(|&(overlap, _)| overlap > 1)?;
        let sheet = sheet(self.gradient.max(0), self.gradient, overlap);
        let train = Train { braked_weight: self.weight, ..EXAMPLE_TRAIN };
        let q = Query { train, tm: self.tm, tr: self.tr, sheet, signal: 0, head };
        for top_speed in [self.v, TOP] {
            let release = answer(&up_to(&q, top_speed)).release;
            assert_eq!(release, Kmh(self.v - (spare < 0) as u32), "{spare} mm to spare: {self:?}");
        }
        Some(spare)
    }
}

/// What is noted is what the overlap has to spare, and whether the train stops under full braking or during the rise.
#[test]
fn ramp_answers_at_the_overlaps_end() {
    let mut random = Random(83);
    let mut kinds = Found::none();
    for _ in 0..100_000 {
        let ramp = Ramp::any(&mut random);
        let Some(phase) = ramp.phase().filter(|&phase| phase != Phase::M && ramp.perhaps_a_hair()) else { continue };
        if let Some(spare) = ramp.decides_release(PLACE - random.below_any(&[1, 3000])) {
            kinds.note((spare, phase == Phase::C));
        }
    }
    kinds.hold(3 * 2, 24);
}

/// Speed and gradient alone decide where a train stops before TM: of all these stops none is 1 mm too long.
#[test]
fn unbraked_stops_at_the_overlaps_end() {
    let mut kinds = Found::none();
    for (gradient, v) in (1..=35).flat_map(|gradient| (1..=100).map(move |v| (gradient, v))) {
        let ramp = Ramp { weight: 100, gradient, v, tm: 2000, tr: 1 };
        let Some(stop) = ramp.on_paper().ok().filter(|_| ramp.phase() == Some(Phase::M)) else { continue };
        if hair(stop.distance).is_none() {
            continue;
        }
        for weight in weights() {
            for (tm, tr) in [(stop.moment / 10 + 1, 1), (stop.moment / 10 + 1, 3000), (2000, 400)] {
                kinds.note(Ramp { weight, tm, tr, ..ramp }.decides_release(PLACE));
            }
        }
    }
    kinds.hold(2, 24);
}

/// What is noted is how many milliseconds after the end of TM the train stops.
#[test]
fn moments_at_the_end_of_the_dead_time() {
    let mut kinds = Found::none();
    for (gradient, v) in (1..=35).flat_map(|gradient| (1..=100).map(move |v| (gradient, v))) {
        let unbraked = Ramp { weight: 100, gradient, v, tm: 2000, tr: 1 };
        let moment = unbraked.on_paper().expect("accepted inputs").moment;
        if unbraked.phase() != Some(Phase::M) {
            continue;
        }
        for (weight, tr) in [(45, 1), (45, 3000), (160, 1), (160, 3000)] {
            for tm in [moment / 10, moment / 10 + 1] {
                let after = Ramp { weight, tm, tr, ..unbraked }.stop().moment as i32 - 10 * tm as i32;
                if after.abs() <= 1 {
                    kinds.note(after);
                }
            }
        }
    }
    kinds.hold(3, 50);
}

/// What is noted is how many milliseconds after the end of TR the train stops, and whether the line rises.
#[test]
fn moments_at_the_end_of_the_rise() {
    let mut random = Random(84);
    let rises: Vec<u32> = (1..=3000).collect();
    let mut kinds = Found::none();
    for _ in 0..3_000 {
        let ramp = Ramp::any(&mut random);
        let first = rises.partition_point(|&tr| Ramp { tr, ..ramp }.phase() == Some(Phase::C));
        // The longest rise that ends before the stop, and the next.
        for &tr in rises.iter().take(first + 1).skip(first.saturating_sub(1)) {
            let ramp = Ramp { tr, ..ramp };
            if ramp.phase().is_none_or(|phase| phase == Phase::M) {
                continue;
            }
            let after = ramp.stop().moment as i32 - ramp.full_from() as i32;
            if after.abs() <= 1 {
                kinds.note((after, ramp.gradient > 0));
            }
        }
    }
    kinds.hold(3 * 2, 20);
}

/// The decelerations di and dp of a braked weight and a gradient, in µm/s².
#[derive(Clone, Copy)]
struct Brakes {
    weight: u32,
    gradient: i32,
    di: i64,
    dp: i64,
}

impl Brakes {
    /// All that are accepted.
    fn all() -> impl Iterator<Item = Brakes> {
        let whole = |number: Fraction| (number * Fraction::from(1_000_000)).raised();
        let brakes = move |weight, gradient| {
            let (di, dp) = (whole(di(gradient, INERTIA)), whole(Fraction::from((9, 10)) * dr(weight)));
            Brakes { weight, gradient, di, dp }
        };
        let all = weights().flat_map(move |weight| (-35..=35).map(move |gradient| brakes(weight, gradient)));
        all.filter(|brakes| brakes.di + brakes.dp >= 50_000)
    }

    /// Under full braking V × 5/18 = di × t + dp × (t - TM - TR/2) at the stop, so that 2 × TM + TR decides. The moment in
    /// milliseconds, as a numerator and a denominator.
    fn rest(self, v: u32, times: u32) -> (i64, i64) {
        let (v, times) = (i64::from(v), i64::from(times));
        (5_000_000_000 * v + 90 * self.dp * times, 18 * (self.di + self.dp))
    }

    /// The longest rise of that sum, if any, that is over by the moment.
    fn longest_rise(self, v: u32, times: u32, moment: u32) -> Option<Ramp> {
        let tr = times.min(3000).min((moment / 5).checked_sub(times)?);
        let tr = tr.checked_sub((times - tr) % 2).filter(|&tr| tr > 0)?;
        let tm = (times - tr) / 2;
        (tm <= 2000).then_some(Ramp { weight: self.weight, gradient: self.gradient, v, tm, tr })
    }
}

/// The sums 2 × TM + TR.
const TIMES: std::ops::RangeInclusive<u32> = 1..=2 * 2000 + 3000;

/// The speed is 0 at a whole millisecond, now and then the very one at which the brake has its full force. Only a V that
/// 9 divides has such a moment, as the other terms are decimals.
#[test]
fn stops_at_a_whole_millisecond() {
    let (mut whole, mut at_the_end) = (0, 0);
    for brakes in Brakes::all() {
        for (v, times) in (9..=99).step_by(9).flat_map(|v| TIMES.map(move |times| (v, times))) {
            let (numerator, denominator) = brakes.rest(v, times);
            if numerator % denominator != 0 {
                continue;
            }
            let moment = (numerator / denominator) as u32;
            let Some(ramp) = brakes.longest_rise(v, times, moment) else { continue };
            assert_eq!(ramp.stop().moment, moment, "{ramp:?}");
            whole += 1;
            at_the_end += (moment == ramp.full_from()) as u32;
        }
    }
    assert!(whole > 500 && at_the_end > 0, "{whole}, {at_the_end}");
}

/// The weakest brakes, about the 20th binary digit of the moment and up to the latest stop of all.
#[test]
fn latest_stops() {
    const EDGE: i64 = 1 << 19;
    let moment = |brakes: Brakes, v, times| {
        let (numerator, denominator) = brakes.rest(v, times);
        numerator / denominator
    };
    let (mut near, mut sides, mut latest) = (Found::none(), Found::none(), 0);
    for brakes in Brakes::all().filter(|&brakes| moment(brakes, 100, 7000) > EDGE) {
        for (v, times) in (1..=100).flat_map(|v| TIMES.map(move |times| (v, times))) {
            let moment = moment(brakes, v, times);
            if (moment - EDGE).abs() <= 1 {
                let ramp = brakes.longest_rise(v, times, moment as u32).expect("a late stop");
                assert_eq!(i64::from(ramp.stop().moment), moment, "{ramp:?}");
                near.note(moment - EDGE);
            }
        }
        for (tm, tr) in [(0, 1), (0, 3000), (2000, 1), (2000, 3000), (1999, 2999)] {
            for v in [1, 2, 50, 98, 99, 100] {
                let stop = Ramp { weight: brakes.weight, gradient: brakes.gradient, v, tm, tr }.stop();
                sides.note(i64::from(stop.moment) > EDGE);
                latest = latest.max(stop.moment);
            }
        }
    }
    near.hold(3, 3);
    sides.hold(2, 10);
    let longest = Brakes::all().map(|brakes| moment(brakes, 100, 7000)).max();
    assert_eq!(Some(i64::from(latest)), longest);
}

/// The strongest brakes on the steepest rises, and hardly any time.
#[test]
fn shortest_stops() {
    let mut shortest = u32::MAX;
    for (weight, gradient) in [150, 155, 160].into_iter().flat_map(|weight| (30..=35).map(move |i| (weight, i))) {
        for (v, tm) in (1..=4).flat_map(|v| [0, 1, 2, 19, 20, 21].map(|tm| (v, tm))) {
            for tr in [1, 2, 3, 40, 41, 3000] {
                shortest = shortest.min(Ramp { weight, gradient, v, tm, tr }.stop().moment);
            }
        }
    }
    let ends = Ramp { weight: 160, gradient: 35, v: 1, tm: 0, tr: 1 };
    assert_eq!(shortest, ends.stop().moment);
}

/// Whether the four distances, which are the reference's, are accepted.
fn check_step(train: Train, v: u32, v0: u32, gradient: i32) -> Option<raw::Distances> {
    let answer = raw::step(train.into(), v, v0, gradient);
    let (refusal, [ebi, sbi, w, p]) = match step(on_paper(train), v, v0, gradient) {
        Ok(distances) => (0, distances),
        Err(refusal) => (refusal, [0; 4]),
    };
    assert_eq!(answer, raw::Distances { refusal, ebi, sbi, w, p }, "{train:?}, V {v}, V0 {v0}, i {gradient}");
    (refusal == 0).then_some(answer)
}

/// By how much a distance was raised: nothing, a micrometre at most, or all but that of a millimetre.
fn raised_by(exact: &Fraction) -> Option<&'static str> {
    let micrometre = Fraction::from((1, 1000));
    let raised = Fraction::from(exact.raised() as u32) - exact;
    if raised.is_zero() {
        Some("nothing")
    } else if raised <= micrometre {
        Some("little")
    } else if raised + micrometre >= Fraction::from(1) {
        Some("much")
    } else {
        None
    }
}

/// Distances without a braking part are whole at times.
#[test]
fn distances_at_a_whole_millimetre() {
    let mut random = Random(85);
    let mut kinds = Found::none();
    for _ in 0..100_000 {
        let (train, gradient, v) = (random.train(), random.below(71) as i32 - 35, random.below(331) as u32);
        let v0 = random.below(v as u64 + 1) as u32;
        let Ok(exact) = exact(on_paper(train), v, v0, gradient) else { continue };
        for (curve, kind) in exact.iter().map(raised_by).enumerate() {
            let Some(kind) = kind else { continue };
            check_step(train, v, v0, gradient).expect("accepted inputs");
            kinds.note((curve, kind));
        }
    }
    kinds.hold(4 * 3, 40);
}

/// Where a train is as slow as it has to be, only a fall still makes it brake.
#[test]
fn at_the_target() {
    let mut accepted = 0;
    for brake in [Brake::Passenger, Brake::Freight] {
        for (braked_weight, v) in weights().flat_map(|weight| [0, 1, 2, 9, 18, 99, 100, 329, 330].map(|v| (weight, v)))
        {
            let train = Train { brake, braked_weight, ..EXAMPLE_TRAIN };
            let level = check_step(train, v, v, 0).expect("accepted inputs");
            for gradient in -35..=35 {
                let Some(distances) = check_step(train, v, v, gradient) else { continue };
                assert_eq!(distances == level, gradient >= 0, "{train:?}, V {v}, i {gradient}");
                accepted += 1;
            }
        }
    }
    assert!(accepted > 10_000, "{accepted}");
}

/// Long freight trains gain more speed on a fall than they had: the way is long, and longer from a lower speed at times.
#[test]
fn slow_and_long_on_falls() {
    let (mut accepted, mut longer) = (0, 0);
    for (braked_weight, gradient) in weights().flat_map(|weight| (-35..=-10).map(move |i| (weight, i))) {
        let (brake, electropneumatic, length) = (Brake::Freight, false, Metre(1000));
        let train = Train { brake, electropneumatic, braked_weight, length, ..EXAMPLE_TRAIN };
        for v0 in 0..=8 {
            let answers = (v0..=12).filter_map(|v| check_step(train, v, v0, gradient)).collect::<Vec<_>>();
            accepted += answers.len();
            longer += answers.windows(2).filter(|pair| pair[0].p > pair[1].p).count();
        }
    }
    assert!(accepted > 10_000 && longer > 30, "{accepted}, {longer}");
}
