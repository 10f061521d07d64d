//! Document 002's first values, and those of a program that knows of no coefficients.
use super::ramp::Run;
use super::step::{check, check_row};
use approach::{
    first_values, query, raw, Coefficients, Inertia, Kmh, Metre, Millimetre, PerMille, Refusal, Train, CURVES,
};
use inputs::{inertia_on_paper, on_paper, times, EXAMPLE, EXAMPLE_TRAIN};
use reference::coefficients::FIRST_VALUES;

/// The library's, the wrapper's and the reference's.
#[test]
fn everywhere_the_same() {
    assert_eq!(first_values(), Coefficients::FIRST_VALUES);
    assert_eq!(raw::first_values(), Coefficients::FIRST_VALUES.into());
    assert_eq!(Coefficients::default(), Coefficients::FIRST_VALUES);
    assert_eq!(Inertia::default(), Coefficients::FIRST_VALUES.inertia);
    assert_eq!(inertia_on_paper(Inertia::FIRST_VALUES), FIRST_VALUES.inertia);
    assert_eq!(on_paper(EXAMPLE_TRAIN).coefficients, FIRST_VALUES);
}

/// Document 002, sections 7 to 7.3.3: Dt 1,30, h 1,0, Kr 0,57, cr 0,05, nC 0,000, VC 150, Ki 0,90 1,00 1,1, i1 0,000, i2 -0,021.
#[test]
fn as_printed() {
    let inertia = Inertia { ki1: 90, ki2: 100, ki3: 110, i1: PerMille(0), i2: PerMille(-21) };
    let printed = Coefficients { dt: 130, h: 10, kr: 57, cr: 5, nc: 0, vc: Kmh(150), inertia };
    assert_eq!(first_values(), printed);
}

/// As a record is that an old program has filled in up to its top speed.
fn zeros() -> Coefficients {
    let inertia = Inertia { ki1: 0, ki2: 0, ki3: 0, i1: PerMille(0), i2: PerMille(0) };
    Coefficients { dt: 0, h: 0, kr: 0, cr: 0, nc: 0, vc: Kmh(0), inertia }
}

/// Each call that takes a train or the five refuses them, and gives nothing beside.
#[test]
fn zeros_are_refused() {
    let t = Train { coefficients: zeros(), ..EXAMPLE_TRAIN };
    for (v, v0) in [(0, 0), (90, 0), (90, 90), (330, 0)] {
        assert_eq!(check(t, v, v0, 0), 12);
    }
    for curve in CURVES {
        assert_eq!([0, 1, 101].map(|places| check_row(curve, t, 0, 0, places)), [12; 3]);
        let mut list = [Millimetre(7); 101];
        assert_eq!(approach::row(curve, t, Kmh(0), PerMille(0), &mut list), Err(Refusal::Coefficient));
        assert_eq!(list, [Millimetre(7); 101]);
    }
    let run = Run { weight: 100, gradient: 0, v: 36, tm: 200, tr: 400, inertia: t.coefficients.inertia };
    assert_eq!(run.check(), 12);
    for signal in [0, 1, 2] {
        assert_eq!(query(t, times(200, 400), &EXAMPLE, signal, Metre(0)), Err(Refusal::Coefficient));
        let answer = raw::query(t.into(), 200, 400, &EXAMPLE, signal, 0);
        assert_eq!(answer, raw::Answer { refusal: 12, ..Default::default() });
    }
}

/// Nor are they answered with any one of them given: what is left 0 shows in Kr and in each Ki.
#[test]
fn nor_with_one_of_them() {
    for span in &inputs::SPANS {
        for end in span.ends() {
            let t = Train { coefficients: span.with(zeros(), end), ..EXAMPLE_TRAIN };
            assert_eq!(check(t, 90, 0, 0), 12, "{} {end}", span.name);
        }
    }
}
