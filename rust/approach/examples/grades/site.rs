//! What is drawn: the stretches about an approach, which of them govern it, and where each lies in the field.
use crate::asked::{borders, Asked};
use crate::svg::{LEFT, RIGHT};
use approach::sheet::{self, Signal};
use approach::{query, Approach, Brake, Coefficients, Hundredth, Kmh, Metre, PerMille, Refusal, Times, Train};

/// A query needs a whole train and its times, though the length alone has a say in which stretches govern: these are the README's,
/// with the strongest brake, lest a fall be too steep for it.
const TRAIN: Train = Train {
    brake: Brake::Passenger,
    electropneumatic: true,
    braked_weight: 160,
    length: Metre(200),
    top_speed: Kmh(100),
    coefficients: Coefficients::FIRST_VALUES,
};
const TIMES: Times = Times { dead: Hundredth(200), rise: Hundredth(400) };

/// Head and foot of the field.
pub const TOP: f64 = 90.0;
pub const BOTTOM: f64 = 390.0;

/// A stretch, and where it ends.
#[derive(Clone, Copy, Debug, PartialEq, Eq)]
pub struct Stretch {
    pub number: u32,
    pub from: Metre,
    pub to: Metre,
    pub gradient: PerMille,
}

/// The points from one to another.
#[derive(Clone, Copy, Debug, PartialEq, Eq)]
pub struct Span {
    pub from: Metre,
    pub to: Metre,
}

pub struct Site {
    pub asked: Asked,
    pub signal: Signal,
    /// The metres that are shown, and the stretches that hold one of them.
    pub shown: Span,
    pub stretches: Vec<Stretch>,
    /// The ends of the axis that goes up.
    pub lowest: PerMille,
    pub highest: PerMille,
    /// The numbers of those that govern.
    pub ahead: u32,
    pub overlap: Option<u32>,
}

impl Site {
    pub fn of(bytes: &[u8], asked: Asked) -> Result<Site, Refusal> {
        let train = Train { length: asked.length, ..TRAIN };
        let Approach { ahead_stretch, overlap_stretch, .. } = query(train, TIMES, bytes, asked.signal, asked.head)?;
        let (signal, borders) = (sheet::signal(bytes, asked.signal)?, borders(bytes)?);
        let shown = about(asked, signal, borders[borders.len() - 1]);
        let mut stretches = Vec::new();
        for (number, (stretch, &to)) in (0..).zip(sheet::stretches(bytes)?.zip(&borders[1..])) {
            if stretch.start < shown.to && to > shown.from {
                stretches.push(Stretch { number, from: stretch.start, to, gradient: stretch.gradient });
            }
        }
        let (lowest, highest) = scale(&stretches);
        Ok(Site { asked, signal, shown, stretches, lowest, highest, ahead: ahead_stretch, overlap: overlap_stretch })
    }

    /// From the tail to the signal.
    pub fn way_ahead(&self) -> Span {
        Span { from: self.asked.tail(self.asked.head), to: self.signal.place }
    }

    /// From where the tail is with the head at the signal, up to the overlap's end.
    pub fn past_the_signal(&self) -> Span {
        Span { from: self.asked.tail(self.signal.place), to: overlap_end(self.signal) }
    }

    /// A point of the line; what is not shown lies at the field's sides.
    pub fn x(&self, point: Metre) -> f64 {
        let Span { from, to } = self.shown;
        let along = f64::from(point.clamp(from, to).0 - from.0) / f64::from(to.0 - from.0);
        LEFT + along * (RIGHT - LEFT)
    }

    pub fn y(&self, gradient: PerMille) -> f64 {
        let (above, span) = (gradient.0 - self.lowest.0, self.highest.0 - self.lowest.0);
        BOTTOM - f64::from(above) / f64::from(span) * (BOTTOM - TOP)
    }
}

fn overlap_end(signal: Signal) -> Metre {
    Metre(signal.place.0 + signal.overlap.0)
}

/// The points that count and a tenth more on either side, 50 m at least, as far as the line goes.
fn about(asked: Asked, signal: Signal, end: Metre) -> Span {
    let (from, to) = (asked.tail(asked.head).0, overlap_end(signal).0);
    let more = ((to - from) / 10).max(50);
    Span { from: Metre(from.saturating_sub(more)), to: Metre((to + more).min(end.0)) }
}

/// Multiples of 5 on either side of 0 and of every gradient, by so much that a number stands between.
fn scale(stretches: &[Stretch]) -> (PerMille, PerMille) {
    let below = |least: i32| (least - 3).div_euclid(5) * 5;
    let gradients = || stretches.iter().map(|stretch| stretch.gradient.0).chain([0]);
    let [falls, rises] = [gradients().min(), gradients().map(|rise| -rise).min()].map(|least| least.expect("0 is one"));
    (PerMille(below(falls)), PerMille(-below(rises)))
}
