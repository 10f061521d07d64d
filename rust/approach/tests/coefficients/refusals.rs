//! Refusal 12 stands between 6 and 7: what is decided before it, and what after.
use super::ramp::Run;
use super::step::{check, check_row};
use approach::{Coefficients, Curve, Inertia, Kmh, Metre, PerMille, Refusal, Train};
use inputs::EXAMPLE_TRAIN;

/// Of several refusals the one that is decided first.
fn first(numbers: &[u32]) -> u32 {
    let decided = Refusal::DECIDED.map(Refusal::number);
    *decided.iter().find(|number| numbers.contains(number)).expect("a refusal")
}

/// What a distance or a row is asked; a row goes up to the top speed, in so many places.
#[derive(Clone, Copy, Debug)]
struct Asked {
    train: Train,
    v: u32,
    v0: u32,
    gradient: i32,
    places: usize,
}

/// Breaks one rule, and is refused by the number.
type Fault<A> = (u32, fn(&mut A));

const FAULTS: [Fault<Asked>; 12] = [
    (1, |a| a.train.braked_weight = 47),
    (2, |a| a.train.length = Metre(1001)),
    (3, |a| a.train.top_speed = Kmh(331)),
    (3, |a| a.train.top_speed = Kmh(0)),
    (4, |a| a.v0 = 101),
    (5, |a| a.gradient = -36),
    (12, |a| a.train.coefficients.dt = 201),
    (12, |a| a.train.coefficients.kr = 29),
    (12, |a| a.train.coefficients.nc = -11),
    (12, |a| a.train.coefficients.vc = Kmh(152)),
    (12, |a| a.train.coefficients.inertia.ki3 = 79),
    (12, |a| a.train.coefficients.inertia.i1 = PerMille(-1)),
];

/// Strong up to 88 km/h on the level, and so refused by 10 at a top speed and a V of 100.
fn weak() -> Asked {
    let coefficients = Coefficients { nc: -10, vc: Kmh(0), ..Coefficients::FIRST_VALUES };
    Asked { train: Train { coefficients, ..EXAMPLE_TRAIN }, v: 100, v0: 0, gradient: 0, places: 101 }
}

#[test]
fn of_distances() {
    let refusal = |a: Asked| check(a.train, a.v, a.v0, a.gradient);
    assert_eq!(refusal(weak()), 10);
    for (one, fault) in FAULTS {
        for (number, other) in FAULTS {
            let mut asked = weak();
            fault(&mut asked);
            other(&mut asked);
            assert_eq!(refusal(asked), first(&[one, number]), "{asked:?}");
        }
    }
}

/// A list that is too short comes last, behind a speed that is too weak.
#[test]
fn of_rows() {
    let refusal = |a: Asked| check_row(Curve::W, a.train, a.v0, a.gradient, a.places);
    assert_eq!([101, 100, 0].map(|places| refusal(Asked { places, ..weak() })), [10; 3]);
    let strong = Asked { train: EXAMPLE_TRAIN, ..weak() };
    assert_eq!([101, 100, 0].map(|places| refusal(Asked { places, ..strong })), [0, 11, 11]);
    for (one, fault) in FAULTS {
        for (number, other) in FAULTS {
            for (asked, places) in [(weak(), 101), (weak(), 1), (strong, 101), (strong, 1)] {
                let mut asked = Asked { places, ..asked };
                fault(&mut asked);
                other(&mut asked);
                assert_eq!(refusal(asked), first(&[one, number]), "{asked:?}");
            }
        }
    }
}

const OF_RAMPS: [Fault<Run>; 10] = [
    (1, |r| r.weight = 47),
    (3, |r| r.v = 101),
    (5, |r| r.gradient = -36),
    (6, |r| r.tm = 2001),
    (6, |r| r.tr = 0),
    (12, |r| r.inertia.ki1 = 79),
    (12, |r| r.inertia.ki2 = 121),
    (12, |r| r.inertia.ki3 = 0),
    (12, |r| r.inertia.i1 = PerMille(36)),
    (12, |r| r.inertia.i2 = PerMille(-36)),
];

#[test]
fn of_ramps() {
    let weak = Run { weight: 45, gradient: -35, v: 36, tm: 200, tr: 400, inertia: Inertia::FIRST_VALUES };
    assert_eq!(weak.check(), 10);
    for (one, fault) in OF_RAMPS {
        for (number, other) in OF_RAMPS {
            let mut run = weak;
            fault(&mut run);
            other(&mut run);
            assert_eq!(run.check(), first(&[one, number]), "{run:?}");
        }
    }
}
