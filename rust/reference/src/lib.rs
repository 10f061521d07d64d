//! The step braking model and the speed ceilings of RFI TC.SCC SR AV 03 R02 (document 002) and the ramp model of RFI
//! TC.PATC ST CM 01 M11 (document 000), in exact fractions.
//!
//! It follows the printed formulas line by line and in their own units, slowly and without any rounding but the last,
//! so that other figures can be held against it. The coefficients are document 002's first values or, by document 02's
//! Card 5, the train's own. Document 01's line sheet stands beside them, its approach query and the walk back from a
//! signal on top, and tables of them all over that.

pub mod allegato;
pub mod approach;
pub mod ceilings;
pub mod coefficients;
pub mod fraction;
pub mod natural;
pub mod ramp;
pub mod sheet;
pub mod step;
pub mod stored;
pub mod tables;
pub mod train;
pub mod units;
pub mod walk;
