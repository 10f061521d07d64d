//! Document 01's figures, refusals and promise for the ramp, as document 02's Card 13 tightens them, its law that the
//! faster run goes farther, and the closed forms of document 000, section 5.1.

use numbers::Numbers;
use reference::coefficients::FIRST_VALUES;
use reference::fraction::Fraction;
use reference::ramp::{goes_farther, greatest_place, keeps_promise, motion, ramp, Motion, Phase, Stop};
use reference::train::dr;
use reference::units::millimetres;

mod numbers;

/// BW, gradient, V, TM and TR as `ramp` takes them beside the first inertia; a train's own is in coefficients.rs.
type Inputs = (u32, i32, u32, u32, u32);

/// Gradients about the slopes that part K, and the ends of every span.
const GRADIENTS: [i32; 10] = [-35, -34, -22, -21, -20, -1, 0, 1, 34, 35];
const BRAKED_WEIGHTS: [u32; 5] = [45, 50, 100, 155, 160];
const TIMES: [(u32, u32); 9] =
    [(0, 1), (0, 2), (0, 3000), (1, 1), (1, 2), (1, 3000), (2000, 1), (2000, 2), (2000, 3000)];

/// Document 01's figures, BW 100: V 36 stops in phase C, the two of V 1 in phase R and in phase M.
const FIGURES: [(Inputs, Phase); 3] =
    [((100, 0, 36, 200, 400), Phase::C), ((100, 0, 1, 0, 3000), Phase::R), ((100, 35, 1, 2000, 1), Phase::M)];

fn fraction(numerator: i64, denominator: u64) -> Fraction {
    Fraction::from((numerator, denominator))
}

/// A moment in seconds.
fn milliseconds(count: u32) -> Fraction {
    fraction(i64::from(count), 1000)
}

fn run((braked_weight, gradient, v, tm, tr): Inputs) -> Result<Stop, u32> {
    ramp(braked_weight, gradient, v, tm, tr, FIRST_VALUES.inertia)
}

fn moving((braked_weight, gradient, v, tm, tr): Inputs) -> Motion {
    motion(braked_weight, gradient, v, tm, tr, FIRST_VALUES.inertia).expect("accepted inputs")
}

fn bounds((braked_weight, gradient, v, tm, tr): Inputs) -> (Fraction, Fraction) {
    greatest_place(braked_weight, gradient, v, tm, tr, FIRST_VALUES.inertia).expect("accepted inputs")
}

/// The same run at another speed.
fn at_speed((braked_weight, gradient, _, tm, tr): Inputs, v: u32) -> Inputs {
    (braked_weight, gradient, v, tm, tr)
}

fn outrun((braked_weight, gradient, v, tm, tr): Inputs, faster: u32) -> Result<bool, u32> {
    goes_farther(braked_weight, gradient, v, faster, tm, tr, FIRST_VALUES.inertia)
}

fn kept((braked_weight, gradient, v, tm, tr): Inputs, distance: u32, moment: u32) -> bool {
    keeps_promise(braked_weight, gradient, v, tm, tr, distance, moment, FIRST_VALUES.inertia)
}

impl Numbers {
    /// Within their spans; low speeds and whole spans take turns, so that no phase of the stop is rare.
    fn inputs(&mut self) -> Inputs {
        let braked_weight = 45 + 5 * self.below(24);
        let gradient = self.below(71) as i32 - 35;
        let v = 1 + [5, 30, 100].map(|span| self.below(span))[self.below(3) as usize];
        let tm = [201, 2001].map(|span| self.below(span))[self.below(2) as usize];
        let tr = 1 + [100, 3000].map(|span| self.below(span))[self.below(2) as usize];
        (braked_weight, gradient, v, tm, tr)
    }

    fn accepted(&mut self) -> Inputs {
        let mut inputs = self.inputs();
        while let Err(refusal) = run(inputs) {
            assert_eq!(refusal, 10, "{inputs:?}");
            inputs = self.inputs();
        }
        inputs
    }

    /// A run and a faster speed for it: the next one mostly, any other sometimes.
    fn climbing(&mut self) -> (Inputs, u32) {
        let inputs = self.accepted();
        let v = inputs.2.min(99);
        let faster = if self.below(4) == 0 { v + 1 + self.below(100 - v) } else { v + 1 };
        (at_speed(inputs, v), faster)
    }
}

/// The ranges of document 02, Card 13, which lie within document 01's.
#[test]
fn figures() {
    let [c, r, m] = FIGURES.map(|(inputs, _)| run(inputs).expect("an accepted figure").distance);
    assert!((110_850..=110_851).contains(&c) && (903..=904).contains(&r) && (125..=126).contains(&m), "{c} {r} {m}");
}

#[test]
fn figures_stop_in_each_phase() {
    for (inputs, phase) in FIGURES {
        assert_eq!(moving(inputs).stops_in(), phase, "{inputs:?}");
        let Stop { distance, moment } = run(inputs).expect("an accepted figure");
        assert!(kept(inputs, distance, moment), "{inputs:?}");
    }
}

/// Sections 5.2.1 and 5.2.2 print, both as dp, dr 0,813 and dp 0,73 for λ 105, and di -0,30 for -28 per mille.
#[test]
fn printed_decelerations() {
    let motion = moving((105, 0, 36, 0, 100));
    let dp = motion.speed(&fraction(1, 1)) - motion.speed(&fraction(2, 1));
    assert_eq!(dp, fraction(9, 10) * dr(105));
    let near = |value: &Fraction, from, to| (fraction(from, 10_000)..fraction(to, 10_000)).contains(value);
    assert!(near(&dr(105), 8125, 8135) && near(&dp, 7250, 7350));
    let falling = moving((105, -28, 36, 100, 100));
    let di = falling.speed(&fraction(0, 1)) - falling.speed(&fraction(1, 1));
    assert!(near(&di, -3050, -2950));
}

/// Section 5.1.1, t_MA and S_MA: V/di and V²/(2 di), here 5/18 over 0.9 × 9.81 × 0.035.
#[test]
fn stop_in_m() {
    let inputs = (100, 35, 1, 2000, 1);
    let (v, di) = (fraction(5, 18), fraction(309_015, 1_000_000));
    let (moment, place) = (&v / &di, &v * &v / (fraction(2, 1) * &di));
    assert_eq!(bounds(inputs), (place.clone(), place.clone()));
    assert_eq!(moving(inputs).speed(&moment), fraction(0, 1));
    assert_eq!(moving(inputs).place(&moment), place);
}

/// Section 5.1.2 with its root whole: 2 V1 TR / dp = (50/9)² for V 5, and (50/3)² for V 19, at dp = 0.7011.
#[test]
fn stop_in_r() {
    for (v, tr, u) in [(5, 779, fraction(50, 9)), (19, 1845, fraction(50, 3))] {
        let inputs = (100, 0, v, 200, tr);
        let motion = moving(inputs);
        assert_eq!(motion.stops_in(), Phase::R);
        // dp u² / (2 TR) = V on the level, so S_RA = V TM + V u - V u / 3.
        let place = fraction(5 * i64::from(v), 18) * (fraction(2, 1) + fraction(2, 3) * &u);
        let moment = fraction(2, 1) + u;
        assert_eq!(motion.speed(&moment), fraction(0, 1), "V {v}");
        assert_eq!(motion.place(&moment), place, "V {v}");
        let (lower, upper) = bounds(inputs);
        assert!(lower <= place && place <= upper, "V {v}");
    }
}

/// Section 5.1.3 for V 36 on the level: V2 = 10 - 2 dp, S2 = 60 - 16 dp / 6, stop after another V2 / dp.
#[test]
fn stop_in_c() {
    let inputs = (100, 0, 36, 200, 400);
    let dp = fraction(7011, 10_000);
    let v2 = fraction(10, 1) - fraction(2, 1) * &dp;
    let place = fraction(60, 1) - fraction(16, 6) * &dp + &v2 * &v2 / (fraction(2, 1) * &dp);
    assert_eq!(bounds(inputs), (place.clone(), place.clone()));
    let moment = fraction(6, 1) + v2 / dp;
    assert_eq!(moving(inputs).speed(&moment), fraction(0, 1));
    assert_eq!(moving(inputs).place(&moment), place);
}

/// Speed and place come from two papers. Simpson's rule over a stretch of one phase is exact for them.
#[test]
fn place_is_the_sum_of_the_speed() {
    let mut numbers = Numbers(0x0123_4567_89AB_CDEF);
    for _ in 0..500 {
        let inputs = numbers.accepted();
        let motion = moving(inputs);
        let t1 = fraction(i64::from(inputs.3), 100);
        let ends = [fraction(0, 1), t1, motion.t2(), motion.t2() + fraction(7, 1)];
        for [from, to] in ends.windows(2).map(|pair| [&pair[0], &pair[1]]) {
            let middle = (from + to) / fraction(2, 1);
            let speeds = motion.speed(from) + fraction(4, 1) * motion.speed(&middle) + motion.speed(to);
            let way = motion.place(to) - motion.place(from);
            assert_eq!(way, (to - from) * speeds / fraction(6, 1), "{inputs:?}");
        }
    }
}

/// Every whole millisecond tried in turn, without the search.
#[test]
fn moment_is_the_last_without_rolling_back() {
    // On -28 per mille BW 45 lets the speed rise in phase R before it falls.
    for inputs in [(100, 0, 36, 200, 400), (100, 0, 1, 0, 3000), (45, -28, 3, 100, 900), (160, 35, 1, 0, 1)] {
        let motion = moving(inputs);
        let moves = |&moment: &u32| motion.speed(&milliseconds(moment)) >= fraction(0, 1);
        let last = (0..120_000).take_while(moves).last().expect("moving at the start");
        assert!((last + 1..last + 5000).all(|moment| !moves(&moment)), "{inputs:?}");
        let raised = millimetres(&motion.place(&milliseconds(last)));
        assert_eq!(run(inputs), Ok(Stop { distance: raised + 1, moment: last }), "{inputs:?}");
    }
}

/// What every accepted input must hold, and what a wrong distance or moment must not.
fn hold_to_promise(inputs: Inputs) {
    let Stop { distance, moment } = run(inputs).expect("accepted inputs");
    let (lower, upper) = bounds(inputs);
    assert!(lower <= upper && upper < &lower + fraction(1, 1_000_000), "{inputs:?}");
    assert!(kept(inputs, distance, moment), "{inputs:?}");
    assert!(!kept(inputs, millimetres(&upper) - 1, moment), "too short: {inputs:?}");
    assert!(!kept(inputs, distance, moment + 1000), "a second late: {inputs:?}");
    // The distance is at least 1 mm over the place at the moment: with another it would be 2 mm or more.
    assert!(!kept(inputs, distance + 1, moment), "too long: {inputs:?}");
    let motion = moving(inputs);
    let speed = |moment: u32| motion.speed(&milliseconds(moment));
    assert!(speed(moment) >= fraction(0, 1) && speed(moment + 1) < fraction(0, 1), "{inputs:?}");
    // Moments all over the run and past it, away from whole milliseconds too.
    for seventh in 0..20 {
        let at = fraction(i64::from(moment) * seventh, 7000);
        assert!(motion.place(&at) <= upper, "{inputs:?}");
    }
}

#[test]
fn promise_at_random() {
    let mut numbers = Numbers(0x9E37_79B9_7F4A_7C15);
    let mut stops = [0; 3];
    for _ in 0..20_000 {
        let inputs = numbers.accepted();
        hold_to_promise(inputs);
        stops[moving(inputs).stops_in() as usize] += 1;
    }
    assert!(stops.iter().all(|&count| count > 1000), "stops in M, R and C: {stops:?}");
}

#[test]
fn promise_at_the_extremes() {
    let (mut held, mut refused) = (0, 0);
    for gradient in GRADIENTS {
        for (braked_weight, v) in BRAKED_WEIGHTS.into_iter().flat_map(|bw| [(bw, 1), (bw, 2), (bw, 100)]) {
            for (tm, tr) in TIMES {
                let inputs = (braked_weight, gradient, v, tm, tr);
                match run(inputs) {
                    Err(refusal) => assert_eq!((refusal, gradient < -30), (10, true), "{inputs:?}"),
                    Ok(_) => hold_to_promise(inputs),
                }
                *(if run(inputs).is_ok() { &mut held } else { &mut refused }) += 1;
            }
        }
    }
    // Only BW 45 and 50 on -35 and -34 are too weak.
    assert_eq!((held, refused), (1350 - 108, 108));
}

/// Document 02, Card 13, in its own words: the moment in milliseconds finds the faster run past a place in metres that
/// the slower one is beyond at no moment.
fn found_past(slower: Inputs, faster: u32, place: &Fraction, moment: u32) -> bool {
    bounds(slower).1 <= *place && moving(at_speed(slower, faster)).place(&milliseconds(moment)) > *place
}

/// The whole numbers of a slower and a faster run. They not only do not fall but rise: no stop takes less than 0.2 s,
/// so at the slower one's the faster one is 5 cm ahead, and it still has 1 km/h, which takes another 0.2 s.
fn rising(slower: Stop, faster: Stop) -> bool {
    slower.distance < faster.distance && slower.moment < faster.moment
}

/// What a run and a faster one alike but for speed must hold.
fn hold_to_order(slower: Inputs, faster: u32) {
    assert_eq!(outrun(slower, faster), Ok(true), "{slower:?} and {faster}");
    let [low, high] = [slower.2, faster].map(|v| run(at_speed(slower, v)).expect("accepted inputs"));
    assert!(rising(low, high), "{slower:?} and {faster}");
    assert!(found_past(slower, faster, &bounds(slower).1, high.moment), "{slower:?} and {faster}");
}

#[test]
fn faster_goes_farther_at_random() {
    let mut numbers = Numbers(0xA076_1D64_78BD_642F);
    let (mut next, mut other) = (0, 0);
    for _ in 0..20_000 {
        let (slower, faster) = numbers.climbing();
        hold_to_order(slower, faster);
        *(if faster == slower.2 + 1 { &mut next } else { &mut other }) += 1;
    }
    assert!(next > 10_000 && other > 4000, "{next} with the next speed, {other} with another");
}

#[test]
fn faster_goes_farther_at_the_extremes() {
    let (mut held, mut refused) = (0, 0);
    for (gradient, braked_weight) in GRADIENTS.into_iter().flat_map(|i| BRAKED_WEIGHTS.map(|bw| (i, bw))) {
        for (tm, tr) in TIMES {
            for (v, faster) in [(1, 2), (1, 100), (2, 3), (98, 99), (99, 100)] {
                let slower = (braked_weight, gradient, v, tm, tr);
                if outrun(slower, faster) == Err(10) {
                    refused += 1;
                } else {
                    hold_to_order(slower, faster);
                    held += 1;
                }
            }
        }
    }
    // Only BW 45 and 50 on -35 and -34 are too weak.
    assert_eq!((held, refused), (2250 - 180, 180));
}

/// Each speed of the span beside the next.
#[test]
fn faster_goes_farther_at_every_speed() {
    for (braked_weight, gradient, tm, tr) in [(100, 0, 200, 400), (45, -28, 2000, 3000), (160, 35, 2000, 1)] {
        (1..100).for_each(|v| hold_to_order((braked_weight, gradient, v, tm, tr), v + 1));
    }
}

/// The checks of the law say "no" where they should.
#[test]
fn slower_does_not_go_farther() {
    let mut numbers = Numbers(0xD1B5_4A32_D192_ED03);
    let micrometre = fraction(1, 1_000_000);
    for _ in 0..1000 {
        let (slower, v) = numbers.climbing();
        let faster = at_speed(slower, v);
        assert_eq!(outrun(faster, slower.2), Ok(false), "{slower:?} and {v}");
        assert_eq!(outrun(slower, slower.2), Ok(false), "{slower:?}");
        let [low, high] = [slower, faster].map(|inputs| run(inputs).expect("accepted inputs"));
        let (place, end) = (bounds(slower).1, bounds(faster).1);
        assert!(!found_past(slower, v, &place, 0), "not yet past: {slower:?} and {v}");
        assert!(!found_past(slower, v, &end, high.moment), "never past: {slower:?} and {v}");
        assert!(!found_past(slower, slower.2, &place, low.moment), "no faster: {slower:?}");
        // The faster one is past this place too, but so is the slower one at its own moment.
        let passed = &place - &micrometre;
        assert!(moving(slower).place(&milliseconds(low.moment)) > passed, "{slower:?}");
        assert!(!found_past(slower, v, &passed, high.moment), "passed by both: {slower:?} and {v}");
        let wrong = [(high, low), (low, low), (low, Stop { moment: low.moment, ..high })];
        assert!(!wrong.into_iter().any(|(low, high)| rising(low, high)), "{slower:?} and {v}");
        assert!(!rising(low, Stop { distance: low.distance, ..high }), "{slower:?} and {v}");
    }
}

#[test]
fn refusals_of_two_speeds() {
    assert_eq!(outrun((100, 0, 0, 200, 400), 1), Err(3));
    assert_eq!(outrun((100, 0, 100, 200, 400), 101), Err(3));
    assert_eq!(outrun((45, -29, 36, 200, 400), 37), Err(10));
    assert_eq!(outrun((45, -28, 36, 200, 400), 37), Ok(true));
}

#[test]
fn refusals() {
    for braked_weight in [0, 40, 44, 46, 47, 161, 165, u32::MAX] {
        assert_eq!(run((braked_weight, 0, 36, 200, 400)), Err(1), "BW {braked_weight}");
    }
    for v in [0, 101, u32::MAX] {
        assert_eq!(run((100, 0, v, 200, 400)), Err(3), "V {v}");
    }
    for gradient in [-36, 36, i32::MIN, i32::MAX] {
        assert_eq!(run((100, gradient, 36, 200, 400)), Err(5), "gradient {gradient}");
    }
    for (tm, tr) in [(200, 0), (200, 3001), (2001, 400), (u32::MAX, 400), (200, u32::MAX)] {
        assert_eq!(run((100, 0, 36, tm, tr)), Err(6), "TM {tm}, TR {tr}");
    }
    // dp + di = 0.362025 - 1.1 × 9.81 × 0.029 = 0.049086 and, at -28, 0.059877.
    assert_eq!(run((45, -29, 36, 200, 400)), Err(10));
    assert!(run((45, -28, 36, 200, 400)).is_ok());
    assert_eq!(greatest_place(45, -29, 36, 200, 400, FIRST_VALUES.inertia), Err(10));
    assert!(!kept((45, -29, 36, 200, 400), 1_000_000, 0));
}

/// Every pair of faults in inputs that are refused by 10 already, so that each single fault is a pair with it.
#[test]
fn lowest_refusal_first() {
    type Fault = fn(&mut Inputs);
    let faults: [(u32, Fault); 6] = [
        (1, |inputs| inputs.0 = 44),
        (3, |inputs| inputs.2 = 0),
        (5, |inputs| inputs.1 = -36),
        (6, |inputs| inputs.3 = 2001),
        (6, |inputs| inputs.4 = 0),
        (10, |_| ()),
    ];
    for (first, (low, fault)) in faults.iter().enumerate() {
        for (high, other) in &faults[first..] {
            let mut inputs = (45, -29, 36, 200, 400);
            fault(&mut inputs);
            other(&mut inputs);
            assert_eq!(run(inputs), Err(*low), "{low} and {high}");
        }
    }
}
