//! Ways past a closed signal, with the five coefficients that these take.
use super::counts::Counts;
use super::ramp::Run;
use approach::{Coefficients, Inertia, PerMille};
use inputs::{in_the_ramp, Random};

/// Weak trains on steep falls are not rare.
fn run(random: &mut Random, inertia: Inertia) -> Run {
    let (weight, gradient) = match random.below(6) {
        0 => (45 + 5 * random.below(3) as u32, random.below(12) as i32 - 35),
        _ => (random.braked_weight(), random.gradient()),
    };
    Run { weight, gradient, v: random.near(1, 100), tm: random.near(0, 2000), tr: random.near(1, 3000), inertia }
}

#[test]
fn at_random() {
    let mut random = Random(121);
    let (mut refusals, mut counts) = (Counts::default(), Counts::default());
    for _ in 0..45_000 {
        let coefficients = random.any_coefficients();
        let run = run(&mut random, coefficients.inertia);
        let refusal = run.check();
        refusals.refusal(refusal);
        if refusal == 0 {
            counts.thresholds(run.inertia, run.gradient);
            counts.ends(in_the_ramp(), &coefficients);
        }
    }
    refusals.hold("answers with 0", 30_000);
    refusals.hold_all(500);
    counts.hold_all(100);
}

/// Each of the five at either end, with each other at either end, on every gradient.
#[test]
fn at_every_corner() {
    let mut random = Random(124);
    let (mut accepted, mut refused) = (0, 0);
    for bits in 0..1 << in_the_ramp().len() {
        let ends = in_the_ramp().iter().enumerate().map(|(place, span)| (span, span.ends()[bits >> place & 1]));
        let corner = ends.fold(Coefficients::FIRST_VALUES, |corner, (span, end)| span.with(corner, end));
        for gradient in -35..=35 {
            for weight in [45, 50, 160] {
                match (Run { weight, gradient, ..run(&mut random, corner.inertia) }.check()) {
                    0 => accepted += 1,
                    refusal => refused += u32::from(refusal == 10),
                }
            }
        }
    }
    assert!(accepted > 5_000 && refused > 100, "{accepted}, {refused}");
}

/// Nothing but one of the five is outside.
#[test]
fn just_outside() {
    let mut random = Random(122);
    let mut counts = Counts::default();
    for span in in_the_ramp() {
        for outside in span.outside() {
            for gradient in -35..=35 {
                let inertia = span.with(random.coefficients(), outside).inertia;
                let run = Run { weight: 100, gradient, v: 36, tm: 200, tr: 400, inertia };
                assert_eq!(run.check(), 12, "{run:?}");
                counts.note(span.name, true);
            }
        }
    }
    counts.hold_all(4 * 71);
}

/// Document 02, Card 13, with every set.
#[test]
fn faster_runs_go_farther() {
    let mut random = Random(123);
    let mut pairs = 0;
    for _ in 0..6_000 {
        let inertia = random.any_coefficients().inertia;
        let v = 1 + random.below(99) as u32;
        let run = Run { v, ..run(&mut random, inertia) };
        pairs += run.check_faster(v + 1 + random.below_any(&[1, 100 - v])) as u32;
    }
    assert!(pairs > 4_000, "{pairs}");
}

/// Said without the reference: a factor counts on its own gradients alone, i1 among Ki2's and i2 among Ki3's.
#[test]
fn which_factor_counts() {
    let inertia = Inertia { ki1: 90, ki2: 90, ki3: 90, i1: PerMille(12), i2: PerMille(-7) };
    let way = |inertia, gradient| Run { weight: 100, gradient, v: 36, tm: 200, tr: 400, inertia }.answer();
    let others: [fn(&mut Inertia); 3] = [|k| k.ki1 = 110, |k| k.ki2 = 110, |k| k.ki3 = 110];
    for (factor, change) in others.into_iter().enumerate() {
        let mut other = inertia;
        change(&mut other);
        for gradient in (-35..=35).filter(|&gradient| gradient != 0) {
            let counting = match gradient {
                13.. => 0,
                -6..=12 => 1,
                _ => 2,
            };
            let (same, given) = (way(inertia, gradient), way(other, gradient));
            assert_eq!(given == same, counting != factor, "factor {factor} on {gradient}: {same:?} {given:?}");
            assert!(same.is_ok() && given.is_ok(), "{gradient}");
        }
    }
    let first = Coefficients::FIRST_VALUES.inertia;
    assert_eq!(way(first, 0), way(inertia, 0), "on the level none does");
}
