//! Coefficients at random, at the ends of their spans and outside, and a train with them for the reference.
use crate::{Line, Query, Random};
use approach::{raw, Brake, Coefficients, Inertia, Kmh, Metre, PerMille, Train};
use reference::coefficients as paper;

/// A coefficient by document 002's span and step, in the header's units.
#[derive(Clone, Copy, Debug)]
pub struct Span {
    pub name: &'static str,
    pub least: i32,
    pub most: i32,
    pub step: i32,
    get: fn(&Coefficients) -> i32,
    set: fn(&mut Coefficients, i32),
}

type Get = fn(&Coefficients) -> i32;
type Set = fn(&mut Coefficients, i32);

const fn span(name: &'static str, least: i32, most: i32, step: i32, get: Get, set: Set) -> Span {
    Span { name, least, most, step, get, set }
}

/// In the header's order.
pub const SPANS: [Span; 11] = [
    span("dt", 0, 200, 1, |k| k.dt as i32, |k, n| k.dt = n as u32),
    span("h", 0, 50, 1, |k| k.h as i32, |k, n| k.h = n as u32),
    span("kr", 30, 150, 1, |k| k.kr as i32, |k, n| k.kr = n as u32),
    span("cr", 0, 10, 1, |k| k.cr as i32, |k, n| k.cr = n as u32),
    span("nc", -10, 10, 1, |k| k.nc, |k, n| k.nc = n),
    span("vc", 0, 400, 5, |k| k.vc.0 as i32, |k, n| k.vc = Kmh(n as u32)),
    span("ki1", 80, 120, 1, |k| k.inertia.ki1 as i32, |k, n| k.inertia.ki1 = n as u32),
    span("ki2", 80, 120, 1, |k| k.inertia.ki2 as i32, |k, n| k.inertia.ki2 = n as u32),
    span("ki3", 80, 120, 1, |k| k.inertia.ki3 as i32, |k, n| k.inertia.ki3 = n as u32),
    span("i1", 0, 35, 1, |k| k.inertia.i1.0, |k, n| k.inertia.i1 = PerMille(n)),
    span("i2", -35, 0, 1, |k| k.inertia.i2.0, |k, n| k.inertia.i2 = PerMille(n)),
];

/// Those that the ramp takes, too.
pub fn in_the_ramp() -> &'static [Span] {
    const IN_THE_RAMP: &[Span] = SPANS.split_at(6).1;
    IN_THE_RAMP
}

impl Span {
    pub fn of(&self, coefficients: &Coefficients) -> i32 {
        (self.get)(coefficients)
    }

    /// The same but for this one. A number below 0 becomes one far over the span, where the coefficient has none.
    pub fn with(&self, coefficients: Coefficients, number: i32) -> Coefficients {
        let mut coefficients = coefficients;
        (self.set)(&mut coefficients, number);
        coefficients
    }

    /// Both ends.
    pub fn ends(&self) -> [i32; 2] {
        [self.least, self.most]
    }

    /// The first numbers beyond the ends, the ends of the numbers themselves, and what is off the step.
    pub fn outside(&self) -> Vec<i32> {
        let off = (1..self.step).flat_map(|rest| [self.least + rest, self.most - rest]);
        [self.least - 1, self.most + 1, i32::MIN, i32::MAX].into_iter().chain(off).collect()
    }
}

impl Random {
    /// In its span, both ends often.
    pub fn in_span(&mut self, span: &Span) -> i32 {
        match self.below(8) {
            0 => span.least,
            1 => span.most,
            _ => span.least + span.step * self.below(((span.most - span.least) / span.step + 1) as u64) as i32,
        }
    }

    /// Each in its span.
    pub fn coefficients(&mut self) -> Coefficients {
        SPANS.iter().fold(Coefficients::FIRST_VALUES, |coefficients, span| span.with(coefficients, self.in_span(span)))
    }

    /// Now and then one is outside.
    pub fn any_coefficients(&mut self) -> Coefficients {
        let coefficients = self.coefficients();
        if self.below(16) > 0 {
            return coefficients;
        }
        let span = &SPANS[self.below(SPANS.len() as u64) as usize];
        let outside = span.outside();
        span.with(coefficients, outside[self.below(outside.len() as u64) as usize])
    }

    /// A train with coefficients of its own.
    pub fn own_train(&mut self) -> Train {
        Train { coefficients: self.any_coefficients(), ..self.train() }
    }

    /// A signal so far ahead that mostly no distance ends the climb, and a brake that is ever weaker above VC.
    pub fn far_query(&mut self) -> Query {
        let (place, overlap) = (150_000, self.below_any(&[1, 20, 200]));
        let gradients = [0, 1].map(|_| self.below(71) as i16 - 35).to_vec();
        let (starts, places, overlaps) = (vec![0, place + 1], vec![place], vec![overlap as u16]);
        let sheet = Line { starts, gradients, places, overlaps, end: place + 1000 }.written();
        let (nc, vc) = (-1 - self.below(10) as i32, Kmh(5 * self.below(30) as u32));
        let coefficients = Coefficients { nc, vc, ..self.coefficients() };
        let train = Train { top_speed: Kmh(330), coefficients, ..self.train() };
        let (tm, tr, head) = (self.near(0, 2000), self.near(1, 3000), self.below_any(&[1, place]));
        Query { train, tm, tr, sheet, signal: 0, head }
    }
}

/// The same five for the reference.
pub fn inertia_on_paper(inertia: Inertia) -> paper::Inertia {
    let raw::Inertia { ki1, ki2, ki3, i1, i2 } = inertia.into();
    paper::Inertia { ki1, ki2, ki3, i1, i2 }
}

fn coefficients_on_paper(coefficients: Coefficients) -> paper::Coefficients {
    let Coefficients { dt, h, kr, cr, nc, vc: Kmh(vc), inertia } = coefficients;
    paper::Coefficients { dt, h, kr, cr, nc, vc, inertia: inertia_on_paper(inertia) }
}

/// The same train for the reference.
pub fn on_paper(train: Train) -> reference::train::Train {
    let Train { brake, electropneumatic, braked_weight, length, top_speed, coefficients } = train;
    let (freight, coefficients) = (brake == Brake::Freight, coefficients_on_paper(coefficients));
    let (Metre(length), Kmh(top_speed)) = (length, top_speed);
    reference::train::Train { freight, electropneumatic, braked_weight, length, top_speed, coefficients }
}
