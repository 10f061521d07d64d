//! Approach speeds and stopping distances after RFI TC.SCC SR AV 03 R02 and RFI TC.PATC ST CM 01 M11: a safe wrapper over the
//! proved calls of `libapproach.a`, which `make archives` makes.
//!
//! Every call takes every input. It answers, or it says why not by a [`Refusal`], the first that applies in the order of
//! [`Refusal::DECIDED`]; memory that is lent is written in the part that is handed back, and nowhere else.
//!
//! # An example
//!
//! A passenger train of 200 m, its electropneumatic brake working and its coefficients document 002's first values, comes up to
//! the signal at 1,057 m of a level line.
//!
//! ```
//! use approach::{query, sheet, step, Brake, Coefficients, Hundredth, Kmh, Mark, Metre, PerMille, Refusal, Times, Train};
//!
//! # fn main() -> Result<(), Refusal> {
//! let train = Train {
//!     brake: Brake::Passenger,
//!     electropneumatic: true,
//!     braked_weight: 100,
//!     length: Metre(200),
//!     top_speed: Kmh(100),
//!     coefficients: Coefficients::FIRST_VALUES,
//! };
//!
//! // From 90 km/h to a stop: how far before the signal the emergency brake, at the latest, has to act.
//! let distances = step(train, Kmh(90), Kmh(0), PerMille(0))?;
//! assert_eq!(distances.ebi.to_string(), "842.532 m");
//!
//! // One level stretch, a signal at 0 with 120 m of overlap and one at 1,057 m with none.
//! let lists = sheet::Lists {
//!     starts: &[Metre(0)],
//!     gradients: &[0],
//!     places: &[Metre(0), Metre(1057)],
//!     overlaps: &[120, 0],
//!     end: Metre(2000),
//! };
//! let mut buffer = [0; sheet::length(1, 2)];
//! let line = sheet::write(lists, &mut buffer)?;
//!
//! // With the head at 0: 90 km/h towards the second signal, held by the braking curve.
//! let times = Times { dead: Hundredth(200), rise: Hundredth(400) };
//! let approach = query(train, times, line, 1, Metre(0))?;
//! assert_eq!((approach.permitted, approach.mark), (Kmh(90), Mark::Curve));
//! assert_eq!(approach.release, Kmh(0));
//!
//! // The only stretch governs the way ahead, and there is no overlap to govern.
//! assert_eq!((approach.ahead_stretch, approach.overlap_stretch), (0, None));
//!
//! // There is no third signal.
//! let refusal = query(train, times, line, 2, Metre(0)).unwrap_err();
//! assert_eq!(refusal.to_string(), "there is no signal or stretch of that number (refusal 8)");
//! # Ok(())
//! # }
//! ```
#![warn(missing_docs)]

mod coefficients;
mod models;
mod query;
pub mod raw;
mod refusal;
pub mod sheet;
mod units;
mod walk;

pub use coefficients::{first_values, Coefficients, Inertia};
pub use models::{
    ceilings, ceilings_stored, ramp, row, step, Brake, Ceilings, Curve, Distances, Stop, Times, Train, CURVES,
    LONGEST_ROW,
};
pub use query::{query, Approach, Mark};
pub use refusal::Refusal;
pub use units::{Ceiling, Hundredth, Kmh, Metre, Millimetre, Millisecond, PerMille};
pub use walk::{step_back, walk, StepBack, Walk};

/// The README's example is run, too.
#[cfg(doctest)]
#[doc = include_str!("../../../README.md")]
struct Readme;
