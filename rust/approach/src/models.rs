//! Stopping distances, ceilings, and the way past a closed signal.
use crate::coefficients::{Coefficients, Inertia};
use crate::raw;
use crate::refusal::{accepted, Refusal};
use crate::units::{Ceiling, Hundredth, Kmh, Metre, Millimetre, Millisecond, PerMille};
use std::fmt;
use std::str::FromStr;

pub use raw::{Curve, CURVES};

/// A train's brake type. Read from `passenger` and `freight`, and shown so.
#[derive(Clone, Copy, Debug, PartialEq, Eq)]
pub enum Brake {
    /// The delay is that of document 01's passenger row.
    Passenger,
    /// The delay is the larger of document 01's two rows.
    Freight,
}

impl fmt::Display for Brake {
    fn fmt(&self, out: &mut fmt::Formatter) -> fmt::Result {
        out.pad(match self {
            Brake::Passenger => "passenger",
            Brake::Freight => "freight",
        })
    }
}

impl FromStr for Brake {
    type Err = String;

    fn from_str(word: &str) -> Result<Brake, String> {
        let named = [Brake::Passenger, Brake::Freight].into_iter().find(|brake| brake.to_string() == word);
        named.ok_or_else(|| format!("the brake type {word:?} is neither passenger nor freight"))
    }
}

/// A train, as its data are entered.
#[derive(Clone, Copy, Debug, PartialEq, Eq)]
pub struct Train {
    /// The brake type.
    pub brake: Brake,
    /// Whether the electropneumatic brake is working.
    pub electropneumatic: bool,
    /// The braked weight percentage, 45 to 160 in steps of 5.
    pub braked_weight: u32,
    /// At most 1,000 m. In a query gradients count from the tail, so much behind the head.
    pub length: Metre,
    /// The service regime's, 1 to 330 km/h.
    pub top_speed: Kmh,
    /// The train's own, or [`Coefficients::FIRST_VALUES`].
    pub coefficients: Coefficients,
}

impl From<Train> for raw::Train {
    fn from(train: Train) -> raw::Train {
        let Train { brake, electropneumatic, braked_weight, length, top_speed, coefficients } = train;
        let (freight, electropneumatic) = ((brake == Brake::Freight).into(), electropneumatic.into());
        let (length, top_speed, coefficients) = (length.0, top_speed.0, coefficients.into());
        raw::Train { freight, electropneumatic, braked_weight, length, top_speed, coefficients }
    }
}

impl fmt::Display for Curve {
    fn fmt(&self, out: &mut fmt::Formatter) -> fmt::Result {
        out.pad(match self {
            Curve::Ebi => "EBI",
            Curve::Sbi => "SBI",
            Curve::W => "W",
            Curve::P => "P",
        })
    }
}

/// The four distances, each the least whole millimetre not below the exact one, and none less than the one before it.
#[derive(Clone, Copy, Debug, PartialEq, Eq)]
pub struct Distances {
    /// Emergency brake intervention.
    pub ebi: Millimetre,
    /// Service brake intervention.
    pub sbi: Millimetre,
    /// Warning.
    pub w: Millimetre,
    /// Permitted.
    pub p: Millimetre,
}

impl Distances {
    /// The distance of a curve.
    pub fn of(self, curve: Curve) -> Millimetre {
        match curve {
            Curve::Ebi => self.ebi,
            Curve::Sbi => self.sbi,
            Curve::W => self.w,
            Curve::P => self.p,
        }
    }
}

/// The distances from a speed, which may be above the top speed, to a target, on a gradient.
pub fn step(train: Train, v: Kmh, target: Kmh, gradient: PerMille) -> Result<Distances, Refusal> {
    let raw::Distances { refusal, ebi, sbi, w, p } = raw::step(train.into(), v.0, target.0, gradient.0);
    let [ebi, sbi, w, p] = [ebi, sbi, w, p].map(Millimetre);
    accepted(refusal, Distances { ebi, sbi, w, p })
}

/// The most places that a row takes: from a target of 0 to a top speed of 330 km/h.
pub const LONGEST_ROW: usize = 331;

/// One curve's distances for every speed from the target to the top speed, the target's first, in a lent list of at least
/// top speed - target + 1 places. What is handed back is the part that was written; on a refusal nothing is.
pub fn row(
    curve: Curve,
    train: Train,
    target: Kmh,
    gradient: PerMille,
    list: &mut [Millimetre],
) -> Result<&[Millimetre], Refusal> {
    let written = raw::row(curve, train.into(), target.0, gradient.0, numbers(list));
    accepted(written.refusal, &list[..written.length as usize])
}

fn numbers(list: &mut [Millimetre]) -> &mut [u32] {
    // A `Millimetre` is laid out as its number, and every number is one.
    unsafe { &mut *(list as *mut [Millimetre] as *mut [u32]) }
}

/// The times of the brake past a signal.
#[derive(Clone, Copy, Debug, PartialEq, Eq)]
pub struct Times {
    /// The dead time TM, at most 20 s.
    pub dead: Hundredth,
    /// The rise time TR, 0.01 to 30 s.
    pub rise: Hundredth,
}

/// How far past a closed signal a train gets that is braked there.
#[derive(Clone, Copy, Debug, PartialEq, Eq)]
pub struct Stop {
    /// At no moment is the train beyond it.
    pub distance: Millimetre,
    /// Then the train is less than 2 mm short of the distance.
    pub moment: Millisecond,
}

/// How far a train gets that is braked at a closed signal, from a speed of 1 to 100 km/h. From a higher one, all else alike, it
/// gets further. Of its coefficients those of the slope alone count.
pub fn ramp(braked_weight: u32, gradient: PerMille, v: Kmh, times: Times, inertia: Inertia) -> Result<Stop, Refusal> {
    let Times { dead, rise } = times;
    let stop = raw::ramp(braked_weight, gradient.0, v.0, dead.0, rise.0, inertia.into());
    let raw::Stop { refusal, distance, moment } = stop;
    accepted(refusal, Stop { distance: Millimetre(distance), moment: Millisecond(moment) })
}

/// The speeds over which warning, service brake and emergency brake intervene.
#[derive(Clone, Copy, Debug, PartialEq, Eq)]
pub struct Ceilings {
    /// Of the warning.
    pub w: Ceiling,
    /// Of the service brake intervention.
    pub sbi: Ceiling,
    /// Of the emergency brake intervention.
    pub ebi: Ceiling,
}

fn given(limits: raw::Limits) -> Result<Ceilings, Refusal> {
    let raw::Limits { refusal, w, sbi, ebi } = limits;
    accepted(refusal, Ceilings { w: Ceiling(w), sbi: Ceiling(sbi), ebi: Ceiling(ebi) })
}

/// The ceilings of a permitted speed of 0 to 330 km/h, worked out by the paper's rule.
pub fn ceilings(permitted: Kmh) -> Result<Ceilings, Refusal> {
    given(raw::ceilings(permitted.0))
}

/// The same answers, of every number, looked up in a table of 993 numbers: for a maker whose equipment reads stored numbers.
pub fn ceilings_stored(permitted: Kmh) -> Result<Ceilings, Refusal> {
    given(raw::ceilings_stored(permitted.0))
}
